# Nothing makes sure of the user: a run ends in an error wherever that user is missing.
#
#     cron-of-a-missing-user.pp
cron { 'rotate':
  command => '/usr/sbin/logrotate /etc/logrotate.conf',
  user    => 'backup',
  minute  => '0',
}

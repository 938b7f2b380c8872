# The copy is made from a file that is removed behind it: the first run may succeed, a second one can't.
#
#     source-that-is-removed.pp
file { '/srv/app/settings':
  source => '/tmp/settings',
}
-> file { '/tmp/settings':
  ensure => absent,
}

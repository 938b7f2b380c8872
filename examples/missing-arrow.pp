# A package and its configuration, without an arrow between them. Installing the package writes the file as well, where the
# package isn't there yet: so the order matters.
#
#     --packages ntp-packages.json missing-arrow.pp
package { 'ntp':
  ensure => installed,
}
file { '/etc/ntp.conf':
  content => "server a\n",
}

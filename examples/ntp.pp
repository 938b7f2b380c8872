# The usual three: a package, its configuration, and the service that reads it.
#
#     --packages ntp-packages.json --facts ntp-facts.json ntp.pp
class ntp($servers = ['a', 'b']) {
  $unit = $facts['os']['family'] ? { 'Debian' => 'ntp', default => 'ntpd' }
  package { 'ntp':
    ensure => installed,
  }
  file { '/etc/ntp.conf':
    ensure  => file,
    owner   => 'root',
    mode    => '0644',
    content => "servers ${servers}\n",
    require => Package['ntp'],
  }
  service { $unit:
    ensure    => running,
    enable    => true,
    subscribe => File['/etc/ntp.conf'],
  }
}
include ntp

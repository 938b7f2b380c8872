package { 'ntp': }

file { '/etc/ntp.conf': content => "server a\n" }

service { 'ntp':
  ensure    => running,
  subscribe => [Package['ntp'], File['/etc/ntp.conf']],
}

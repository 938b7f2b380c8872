file { '/etc/motd':
  content => 'hi'
}

file { '/etc/hosts.allow':
  content => 'sshd: 10.0.0.0/8',
}

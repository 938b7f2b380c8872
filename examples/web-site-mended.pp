# The same with the arrow that `--ask repair` prints.
#
#     --facts web-facts.json --packages web-packages.json web-site-mended.pp
package { 'nginx': }

file { '/etc/nginx/conf.d/site.conf':
  content => "server_name ${facts['hostname']};\n",
}

service { 'nginx':
  ensure  => running,
  require => Package['nginx'],
}

group { 'deploy': }

user { 'deploy':
  gid        => 'deploy',
  managehome => true,
  home       => '/home/deploy',
}

cron { 'renew':
  command => '/usr/local/bin/renew',
  user    => 'deploy',
  hour    => '4',
}
Package['nginx'] -> File['/etc/nginx/conf.d/site.conf']

# A web server, its site, and the user who brings new versions. One arrow is missing.
#
#     --facts web-facts.json --packages web-packages.json web-site.pp
package { 'nginx': }

file { '/etc/nginx/conf.d/site.conf':
  content => "server_name ${facts['hostname']};\n",
}

service { 'nginx':
  ensure  => running,
  require => Package['nginx'],
}

group { 'deploy': }

user { 'deploy':
  gid        => 'deploy',
  managehome => true,
  home       => '/home/deploy',
}

cron { 'renew':
  command => '/usr/local/bin/renew',
  user    => 'deploy',
  hour    => '4',
}

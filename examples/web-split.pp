# The same, with a class of its own for each concern.
class web::site {
  file { 'folder of the site':
    ensure => directory,
    path   => '/srv/web',
  }
  file { '/srv/web/index.html':
    content => "hello\n",
    require => File['folder of the site'],
  }
}

class web::greeting {
  file { '/etc/motd':
    content => "a web server\n",
  }
}

class web {
  contain web::greeting
  contain web::site
}

include web

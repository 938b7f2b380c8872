# The same, but one of the classes is declared nowhere.
class web::site {
  file { '/srv/web':
    ensure => directory,
  }
  file { '/srv/web/index.html':
    content => "hello\n",
  }
}

class web::greeting {
  file { '/etc/motd':
    content => "a web server\n",
  }
}

class web {
  contain web::site
}

include web

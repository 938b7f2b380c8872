# A site with its greeting, in one class.
class web {
  file { '/srv/web':
    ensure => directory,
  }
  file { '/srv/web/index.html':
    content => "hello\n",
  }
  file { '/etc/motd':
    content => "a web server\n",
  }
}

include web

# A user of a group that is declared beside it: an automatic edge orders the two.
#
#     user-and-group.pp
group { 'web':
  ensure => present,
}

user { 'deploy':
  ensure => present,
  gid    => 'web',
}

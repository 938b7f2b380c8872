# Nothing makes sure of /etc/app: a run ends in an error wherever that folder is missing, and does so in every order.
#
#     folder-that-nothing-makes.pp
file { '/etc/app/app.conf':
  content => "port = 80\n",
}

# The service isn't ordered behind the package that brings its unit.
#
#     --packages ntp-packages.json service-without-package.pp
package { 'ntp':
  ensure => installed,
}

service { 'ntp':
  ensure => running,
}

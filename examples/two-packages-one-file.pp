# Both packages bring /usr/share/common/licence, with other contents.
#
#     --packages two-packages-one-file.json two-packages-one-file.pp
package { ['red', 'blue']:
  ensure => installed,
}

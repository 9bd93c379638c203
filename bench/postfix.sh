#!/usr/bin/env bash
# A Postfix of its own in a folder, in the foreground: it queues mail for mail.example on the disk, and discards it. bench/mail.sh starts it.
#     bench/postfix.sh FOLDER ADDRESS
set -eu
folder=$1 address=$2
mkdir -p "$folder"/{etc,spool,data}
chmod 755 "$folder"
chown postfix "$folder/data"
sed -E 's/^([a-z]+ +[a-z-]+ +[a-z-]+ +[a-z-]+ +)y /\1n /' /usr/share/postfix/master.cf.dist >"$folder/etc/master.cf"
cat >"$folder/etc/main.cf" <<END
compatibility_level = 3.6
queue_directory = $folder/spool
data_directory = $folder/data
maillog_file = /dev/stdout
inet_interfaces = $address
inet_protocols = ipv4
myhostname = mail.example
mydestination =
alias_maps =
relay_domains = mail.example
relay_transport = discard
smtpd_relay_restrictions = reject_unauth_destination
smtpd_banner = mail.example ESMTP
END
exec postfix -c "$folder/etc" start-fg

#!/usr/bin/env bash
# Makes the certificates of a cluster: an authority, and for each node a certificate with its key. etcd's members and the
# nodes' nginxes authenticate each other with them.
#
#   certificates.sh FOLDER NODE=ADDRESS..     such as certificates.sh /etc/avroreg/tls n1=10.0.0.1 n2=10.0.0.2 n3=registry-3.example.org
#
# It keeps an existing authority, so it can also make the certificate of a further node. Don't leave the authority's key, ca.key,
# on a node: keep it elsewhere.
set -eu
[ $# -ge 2 ] || {
  sed -n '2,8s/^# \{0,1\}//p' "$0" >&2
  exit 64
}
folder=$1
shift
umask 077
mkdir -p "$folder"
cd "$folder"

new_key() {
  openssl ecparam -name prime256v1 -genkey -noout -out "$1"
}

if [ ! -f ca.key ]; then
  new_key ca.key
  openssl req -x509 -new -key ca.key -days 3650 -subj "/CN=avroreg cluster" -out ca.crt
fi
for node; do
  name=${node%%=*} address=${node#*=} kind=DNS
  [[ ! $address =~ ^[0-9.]+$|: ]] || kind=IP
  new_key "$name.key"
  openssl req -new -key "$name.key" -subj "/CN=$name" |
    openssl x509 -req -CA ca.crt -CAkey ca.key -CAcreateserial -days 825 -out "$name.crt" -extfile <(
      echo "subjectAltName=$kind:$address,DNS:node.avroreg"
      echo "extendedKeyUsage=serverAuth,clientAuth"
    ) 2>/dev/null
done
chmod 644 ./*.crt

# Flows of TCP to the ports of the web: port, member and port of the exchange, bytes.
$7 == "tcp" && $8 ~ /^(80|443|8080)$/ { print $8, $1, $2 }

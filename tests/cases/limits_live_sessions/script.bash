# Writes a script of 4,097 requests, each of which is to begin a session: one more than a host takes.
for ((n = 1; n <= 4097; n++)); do
  printf -v message '%s\r\n' 'OPTIONS sip:bob@home.test SIP/2.0' "Via: SIP/2.0/TCP 127.0.0.1:5090;branch=z9hG4bK$n" \
    'Max-Forwards: 70' 'From: <sip:alice@home.test>;tag=a' 'To: <sip:bob@home.test>' "Call-ID: c$n" 'CSeq: 1 OPTIONS' \
    'Content-Length: 0' ''
  printf 'in c1 %d\n%s\n' "${#message}" "$message"
done
echo end

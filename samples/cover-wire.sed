# For `sed -E -f`, between two dumps of IPv4 and `fffuu cover`: puts drops of packets that no router forwards, and of tcp packets in a
# state that they never have (without SYN and ACK none is NEW), in front of the rules of FORWARD in both dumps.
/^\*filter/,/^((\[[0-9]+:[0-9]+\] )?-A FORWARD|COMMIT)/{
/^((\[[0-9]+:[0-9]+\] )?-A FORWARD|COMMIT)/i\
-A FORWARD -s 0.0.0.0/32 -j DROP\
-A FORWARD -d 0.0.0.0/32 -j DROP\
-A FORWARD -s 127.0.0.0/8 -j DROP\
-A FORWARD -d 127.0.0.0/8 -j DROP\
-A FORWARD -s 224.0.0.0/4 -j DROP\
-A FORWARD -s 255.255.255.255/32 -j DROP\
-A FORWARD -d 255.255.255.255/32 -j DROP\
-A FORWARD -p tcp -m tcp --tcp-flags SYN,ACK NONE -m conntrack --ctstate NEW -j DROP
}

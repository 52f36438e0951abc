# For `sed -E -f`, between two dumps and `fffuu cover`: puts a drop of what a change is meant to open in front of the rules of FORWARD
# in both dumps, so that the question is asked of all other packets.
/^\*filter/,/^((\[[0-9]+:[0-9]+\] )?-A FORWARD|COMMIT)/{
/^((\[[0-9]+:[0-9]+\] )?-A FORWARD|COMMIT)/i\
-A FORWARD -d 192.168.20.11/32 -o dmz0 -p tcp -m tcp --dport 25 -j DROP
}

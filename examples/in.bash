#!/usr/bin/env bash
# in.bash PLACE <MESSAGE: writes the `in` line of a script, and the message behind it. The lines of the message may end
# with LF alone, and its Content-Length is put right; without an empty line it has no body.
#
#   bash examples/in.bash c1 <invite.txt >>script
set -eu
place=$1
head='' body='' in_body=
while IFS= read -r line || [ -n "$line" ]; do
  line=${line%$'\r'}
  if [ -n "$in_body" ]; then
    body+=$line$'\r\n'
  elif [ -z "$line" ]; then
    in_body=1
  elif [[ ${line,,} != content-length:* && ${line,,} != l:* ]]; then
    head+=$line$'\r\n'
  fi
done
LC_ALL=C
message=$head"Content-Length: ${#body}"$'\r\n\r\n'$body
printf 'in %s %d\n%s\n' "$place" "${#message}" "$message"

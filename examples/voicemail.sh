#!/bin/sh
# Voice mail: greets each caller, records a message until # or until the caller hangs up, and keeps it in a folder. The name of the
# file has the date, and the number of the caller if the exchange tells it.
#
#     examples/voicemail.sh SERVER FOLDER GREETING.wav [CALLS [OPTION ..]]
#
# The greeting fits the device, as `af aplay --file=wave` wants it. A message is at most 120 seconds long. Options are those of
# `af answer`, such as --device=1 for another line.
[ $# -ge 3 ] || { echo "usage: voicemail.sh SERVER FOLDER GREETING.wav [CALLS [OPTION ..]]" >&2; exit 2; }
mkdir -p "$2" || exit
VOICEMAIL_FOLDER=$(cd "$2" && pwd) VOICEMAIL_GREETING=$3
# the digits begin with D, the number and C, if the exchange tells the number
VOICEMAIL_MESSAGE='NUMBER=
case $AUDIOFILE_DIGITS in
D*C*) NUMBER=${AUDIOFILE_DIGITS#D}; NUMBER=-${NUMBER%%C*} ;;
esac
exec af arecord --device=$AUDIOFILE_DEVICE --file=wave --seconds=120 > "$VOICEMAIL_FOLDER/$(date +%Y%m%d-%H%M%S)$NUMBER.wav"'
export VOICEMAIL_FOLDER VOICEMAIL_GREETING VOICEMAIL_MESSAGE
SERVER=$1 CALLS=${4:-1000}
shift 3
[ $# -eq 0 ] || shift
exec af answer "$SERVER" --calls="$CALLS" --until='#' --hang-up \
    --greeting='exec af aplay --device=$AUDIOFILE_DEVICE --file=wave --drain < "$VOICEMAIL_GREETING"' \
    --message='eval "$VOICEMAIL_MESSAGE"' "$@"

#!/bin/sh
# A menu for callers: 1 leaves a message, 2 plays the last one.
#
#     examples/ivr.sh SERVER FOLDER [CALLS [OPTION ..]]
#
# The folder has menu.wav, which fits the device, and takes last.wav. The menu is played until a digit is dialed. It ends with some
# seconds of silence in which the caller may still dial (sox menu.wav long.wav pad 0 5 adds them). What the digit asks for is the
# message of the machine. The caller ends what runs by another digit, or hangs up. Options are those of `af answer`, such as
# --device=1 for another line.
[ $# -ge 2 ] || { echo "usage: ivr.sh SERVER FOLDER [CALLS [OPTION ..]]" >&2; exit 2; }
IVR_FOLDER=$(cd "$2" && pwd) || exit
export IVR_FOLDER
IVR_CHOICE='case ${AUDIOFILE_DIGITS##*C} in
1*) exec af arecord --device=$AUDIOFILE_DEVICE --file=wave --seconds=60 > "$IVR_FOLDER/last.wav" ;;
2*) exec af aplay --device=$AUDIOFILE_DEVICE --file=wave --drain < "$IVR_FOLDER/last.wav" ;;
esac'
export IVR_CHOICE
SERVER=$1 CALLS=${3:-1000}
shift 2
[ $# -eq 0 ] || shift
exec af answer "$SERVER" --calls="$CALLS" --until='12#' --hang-up \
    --greeting='exec af aplay --device=$AUDIOFILE_DEVICE --file=wave --drain < "$IVR_FOLDER/menu.wav"' \
    --message='eval "$IVR_CHOICE"' "$@"

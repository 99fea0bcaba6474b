exec python3 "$(dirname "$0")/measure.py" "$1" "$(dirname "$0")"/*.v

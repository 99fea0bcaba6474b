# From the text of each of the largest programs to the Verilog text.
python3 "$(dirname "$0")/make.py"
for source in *.dk; do
    echo "$source"
    /usr/bin/time -f '%e s %M KB' "$1" <"$source" >/dev/null
done

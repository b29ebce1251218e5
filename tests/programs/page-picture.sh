#!/usr/bin/env bash
# page-picture.sh OUT.png: makes README's picture, the first printed sheet of the sample shift's page and the one with its red card, side by side. Needs
# chromium and pdftoppm (Debian's poppler-utils); where one is missing that is
# told, nothing is made, and the exit status is 0. docs/page.png is made by `tests/programs/page-picture.sh docs/page.png`.
set -eu
cd "$(dirname "$0")/../.."
out="$(realpath "$1")"
for tool in chromium pdftoppm; do
  command -v $tool > /dev/null || { echo "skipped: the picture of the page: no $tool here"; exit 0; }
done
work="$(mktemp -d)"; trap 'rm -r "$work"' EXIT
browser() {
  chromium --headless=new --no-sandbox --disable-gpu --hide-scrollbars --force-device-scale-factor=1 --user-data-dir="$work/profile" "$@" > /dev/null 2>&1
}
./foldflake page --text examples/shift.txt examples/shift.batch "$work/shift.html" 2> /dev/null
browser --no-pdf-header-footer --print-to-pdf="$work/shift.pdf" "file://$work/shift.html"
pdftotext -layout "$work/shift.pdf" "$work/shift.text"
# sheets end with a form feed; each carries the batch's name, its blocks and its number
sheets="$(tr -cd '\f' < "$work/shift.text" | wc -c)"
for n in $(seq "$sheets"); do
  awk -v n="$n" 'BEGIN { RS = "\f" } NR == n' "$work/shift.text" > "$work/sheet"
  grep -q "shift.batch, 15 blocks .*page $n of $sheets" "$work/sheet" || { echo "the picture: sheet $n does not carry its name and number"; exit 1; }
  grep -q "Why S, and yet not clear" "$work/sheet" && grep -q "Job 2113" "$work/sheet" && red="$n"
done
pdftoppm -r 80 -png "$work/shift.pdf" "$work/sheet"
first="$(ls "$work"/sheet-*.png | head -n 1)"; second="$(ls "$work"/sheet-*.png | sed -n "${red}p")"
printf '<body style="margin:0;background:#999;display:flex;gap:8px"><img src="file://%s"><img src="file://%s">' "$first" "$second" > "$work/two.html"
browser --allow-file-access-from-files --window-size=1332,936 --screenshot="$work/two.png" "file://$work/two.html"
[ -s "$work/two.png" ] || { echo "the picture: the browser made none"; exit 1; }
cp "$work/two.png" "$out"
echo "the picture: sheets 1 and $red of $sheets, $(stat -c %s "$out") bytes"

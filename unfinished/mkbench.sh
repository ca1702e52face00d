# mkbench TREE : adds crate bench_listing to a copy of TREE's crates (sources only) at /tmp/tryt/NAME
set -e
tree=$1; name=$2
rm -rf /tmp/tryt/$name; mkdir -p /tmp/tryt/$name/crates
cp $tree/crates.txt /tmp/tryt/$name/
for c in $(ls $tree/crates); do mkdir -p /tmp/tryt/$name/crates/$c; cp -r $tree/crates/$c/src /tmp/tryt/$name/crates/$c/; done
mkdir -p /tmp/tryt/$name/crates/bench_listing/src
cat > /tmp/tryt/$name/crates/bench_listing/src/main.rt <<'R'
use area_listing::INPUT;
use area_listing::LISTING;

fn main() {
    let mut bytes = [0u8; INPUT];
    let n = input::read_input(&mut bytes);
    let mut text = [0u8; LISTING];
    let power = bytes[0];
    let mut loops: usize = 1;
    let mut k: u8 = 0;
    while k < power {
        loops = loops * 2;
        k += 1;
    }
    let mut length: usize = 0;
    let mut i: usize = 0;
    while i < loops {
        length = area_listing::listing(&bytes[1..n], &mut text);
        i += 1;
    }
    input::write_output(&text[..length]);
}
R
echo "bench_listing: input area_listing" >> /tmp/tryt/$name/crates.txt

#!/bin/bash
# runv.sh ROOT CRATES..: tests variants of each crate
root=$1; shift
cd $root
for c in "$@"; do
  for f in $(cd /tmp/flip/var && ls -d crates/$c >/dev/null 2>&1 && find crates/$c -name '*.antt'); do cp $f /tmp/flip/keep-$(basename $root).$(echo $f | tr / _); cp /tmp/flip/var/$f $f; done
  TMPDIR=/dev/shm rt dev $c --allow-holes > /tmp/flip/out/$c.log 2>&1
  for f in $(cd /tmp/flip/var && find crates/$c -name '*.antt'); do cp -p /tmp/flip/keep-$(basename $root).$(echo $f | tr / _) $f; done
done

#!/usr/bin/env bash
# Takes far_rows and far_forms out of far_events in a clean tree, and says what is wrong with it. usage: open/far-rows/run.sh (at the top)
set -euo pipefail
here=open/far-rows
python3 $here/1_rows.py . >/dev/null
python3 $here/2_edits.py . far_rows
python3 $here/3_more_edits.py .
python3 $here/4_forms.py . >/dev/null
python3 $here/2_edits.py . far_forms
python3 $here/5_more_edits.py .
python3 $here/6_pages.py .
python3 $here/7_names.py .
python3 $here/8_flat.py
python3 $here/9_unused.py . far_rows,far_forms,far_events,far_core --fix >/dev/null
python3 $here/7_names.py .
scripts/edits_stand.py
for crate in far_rows far_forms far_events far_core; do
  (cd "crates/$crate" && rt fmt)
done

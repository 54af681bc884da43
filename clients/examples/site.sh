#!/bin/sh
# Makes a site from a folder of Markdown: site.sh FOLDER SITE. BIVDRAZO_RENDER is the program.
exec "${BIVDRAZO_RENDER:-bivdrazo-render}" \
    --lang en --number-ids --heading-ids slug --toc --out-dir "$2" "$1"

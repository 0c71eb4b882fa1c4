#!/bin/sh
# The timeline of docs/timeline.sh as a picture (SVG): sh docs/timeline-svg.sh SCRIPT LISTING > PICTURE
# Time runs downwards. Every mark has a shape and words of its own; a broken line leads from a commit that waits to the core that is first in
# its way. There is no colour.
form=svg
. "$(dirname "$0")/timeline.sh"

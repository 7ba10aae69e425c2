" `:compiler afx`, then `:make`: the errors of `afx check`, from the object that it prints with `--format json`.
if exists("current_compiler")
  finish
endif
let current_compiler = "afx"
CompilerSet makeprg=afx\ check\ --format\ json\ %:S
" A race, another refusal with a place, one without, and other lines, which are left out.
CompilerSet errorformat=%.%#\"column\":%c\\,\"file\":\"%f\"\\,%.%#\"line\":%l\\,\"message\":\"%m\"\\,\"race\"%.%#
CompilerSet errorformat+=%.%#\"column\":%c\\,\"file\":\"%f\"\\,%.%#\"line\":%l\\,\"message\":\"%m\"\\,\"reason\"%.%#
CompilerSet errorformat+=%.%#\"column\":null\\,\"file\":\"%f\"\\,%.%#\"message\":\"%m\"\\,\"reason\"%.%#
CompilerSet errorformat+=%-G%.%#

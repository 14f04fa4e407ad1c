" Vim syntax of the component manager's scripts.
"
" Copy it to ~/.vim/syntax/ and set the file type with a line at the end of a script:
"   # vim: set filetype=component-script:
if exists("b:current_syntax")
  finish
endif

syntax case match

" Commands: LANE COMMAND TARGET and what follows.
syntax match componentLane "^\d\+\ze " nextgroup=componentCommand skipwhite
" A lane above 15 or with a needless zero is a fault.
syntax match componentLaneFault "^\(1[6-9]\|[2-9]\d\|\d\{3,}\|0\d\+\)\ze "
syntax match componentCommand contained nextgroup=componentTarget skipwhite
      \ "\<\(resolve\|start\|stop\|shutdown\|create\|destroy\|list\|open-exposed\|open\|route\)\ze "
syntax match componentCommand contained nextgroup=componentTarget skipwhite
      \ "\<\(doctor\|show\|survey\|events\|exited\)\ze "
syntax match componentTarget "@\d\+\|\S\+" contained
syntax match componentPath " \zs/\S*"
syntax match componentGroup " \zs+\ze " nextgroup=componentKind skipwhite
syntax keyword componentKind contained protocol directory
syntax match componentOption "\<\(as\|rights\|subdir\)="
syntax keyword componentWord weak optional transitional same_as_target parent self framework void

" Header lines.
syntax match componentHeader "^\(builtin protocol\|builtin directory\|root\)\ze "
syntax match componentSync "^sync$"
syntax match componentUrl "\<[a-z][a-z0-9+.-]*://\S\+\|#meta/\S\+"
syntax match componentComment "^#.*$"

" Manifests, in the relaxed spelling.
syntax region componentManifest matchgroup=componentHeader start="^manifest\ze " end="^%%$" keepend
      \ contains=componentUrl,manifestComment,manifestString,manifestKey,manifestSection,manifestWord
syntax match manifestComment "//.*$" contained
syntax region manifestComment start="/\*" end="\*/" contained
syntax region manifestString start=+"+ skip=+\\.+ end=+"+ oneline contained
syntax region manifestString start=+'+ skip=+\\.+ end=+'+ oneline contained
syntax match manifestKey +\(\<[A-Za-z_$][A-Za-z0-9_$]*\|"[^"\\]*"\|'[^'\\]*'\)\ze\s*:+ contained
syntax match manifestSection contained
      \ +["']\=\<\(program\|children\|collections\|capabilities\|use\|offer\|expose\|facets\)\>["']\=\ze\s*:+
syntax match manifestSection contained +["']\=\<environments\>["']\=\ze\s*:+
syntax keyword manifestWord contained true false null

highlight default link componentLane Number
highlight default link componentLaneFault Error
highlight default link componentCommand Statement
highlight default link componentTarget Identifier
highlight default link componentPath String
highlight default link componentGroup Operator
highlight default link componentKind Type
highlight default link componentOption Type
highlight default link componentWord Constant
highlight default link componentHeader PreProc
highlight default link componentSync PreProc
highlight default link componentUrl Underlined
highlight default link componentComment Comment
highlight default link manifestComment Comment
highlight default link manifestString String
highlight default link manifestKey Identifier
highlight default link manifestSection Statement
highlight default link manifestWord Constant

let b:current_syntax = "component-script"

" Syntax of the scripts of desk. Made by docs/make-manual of docs/SCRIPT.md.
if exists("b:current_syntax")
  finish
endif
syntax case match
syntax match deskComment "^#.*$" contains=@Spell
syntax region deskText start=+"+ end=+"+ oneline
syntax match deskNumber "\( \)\@<=-\?\d\{1,9}\ze\( \|$\)"
syntax match deskCommand "^\(version\|desk\|image\|find\|window\|float\|close\|show\|hide\|showhide\|select\|front\|behind\|move\|size\|zoom\|title\|hilite\|goaway\|gastep\|gaend\|drag\|dragstep\|dragend\|grow\|growstep\|growend\|info\|frontwin\|draw\|clear\|scroll\|region\|inval\|invalrgn\|valid\|validrgn\|begin\|drawp\|drawt\|drawl\|drawc\|end\|update\|updatergn\|visrgn\|control\|cdispose\|cshow\|chide\|cmove\|csize\|cvalue\|cmin\|cmax\|chilite\|ctitle\|cget\|findc\|ctest\|ctrack\|ctstep\|ctend\|list\|ldispose\|laddrow\|laddcol\|ldelrow\|ldelcol\|lset\|ladd\|lclear\|lget\|lsetsel\|lgetsel\|lclick\|lscroll\|ldraw\|lnext\|lsearch\|text\|tplace\|tdispose\|tshow\|thide\|tset\|tinsert\|tdelete\|tkey\|tcut\|tcopy\|tpaste\|tselect\|tactive\|tidle\|tjust\|tscroll\|tview\|tclick\|tstep\|tend\|tget\|tinfo\|tline\|tpoint\|toffset\|scrap\|setscrap\|textwidth\|fontinfo\|menu\|mappend\|mitem\|minsert\|mdelete\|mdispose\|menable\|mdisable\|mcheck\|mdown\|mmove\|mup\|mkey\|mhilite\|post\|next\|avail\|flush\|setmask\)\ze\( \|$\)"
syntax match deskOperation "\(^draw \S\+ \)\@<=\(erase\|invert\|fill\|frame\|hline\|vline\|text\|bits\|rgn\|round\|oval\|frect\|fround\|foval\|arc\|farc\|line\|poly\|fpoly\|frgn\|clip\)\ze\( \|$\)"
syntax match deskOperation "\(^draw \S\+ clip \S\+ \)\@<=\(erase\|invert\|fill\|frame\|hline\|vline\|text\|bits\|rgn\|round\|oval\|frect\|fround\|foval\|arc\|farc\|line\|poly\|fpoly\|frgn\)\ze\( \|$\)"
syntax match deskOperation "\(^region \)\@<=\(rect\|round\|oval\|frect\|fround\|foval\|arc\|farc\|line\|poly\|fpoly\|rgn\|offset\|inset\|frgn\|union\|sect\|diff\|xor\)\ze\( \|$\)"
syntax match deskKind "\(^window \)\@<=\(document\|nogrow\|zoom\|dialog\|plain\|shadow\|notched\|round\)\ze\( \|$\)"
syntax match deskKind "\(^float \)\@<=\(document\|nogrow\|zoom\|dialog\|plain\|shadow\|notched\|round\)\ze\( \|$\)"
syntax match deskKind "\(^control \S\+ \)\@<=\(button\|check\|radio\|scroll\|rbutton\)\ze\( \|$\)"
syntax match deskKind "\(^list \S\+ \)\@<=\(text\)\ze\( \|$\)"
syntax match deskMode "\( \)\@<=\(patCopy\|patOr\|patXor\|patBic\|notPatCopy\|notPatOr\|notPatXor\|notPatBic\|srcOr\|srcXor\|srcBic\|srcCopy\|notSrcCopy\|notSrcOr\|notSrcXor\|notSrcBic\)\ze\( \|$\)"
syntax match deskPattern "\( \)\@<=\(black\|dkGray\|gray\|ltGray\|white\)\ze\( \|$\)"
highlight default link deskCommand Statement
highlight default link deskOperation Function
highlight default link deskKind Type
highlight default link deskMode Constant
highlight default link deskPattern Constant
highlight default link deskComment Comment
highlight default link deskText String
highlight default link deskNumber Number
let b:current_syntax = "desk"

" The language client of Vim (9.0 or later) for profiles in ROHC-FN: it starts `rohcfn lsp` by Vim's own channels. docs/EDITORS.md says how to put it in place.
" g:rohcfn_command is bin/rohcfn, by its path or as it is on the PATH.
if exists("b:rohcfn_lsp") || !has("channel") || !has("patch-8.2.4684")
  finish
endif
let b:rohcfn_lsp = 1

if !exists("s:job")
  let s:job = v:null
  let s:waits = 10000 " milliseconds for an answer
  call prop_type_add("rohcfnFault", {"highlight": "SpellBad", "override": v:true})
endif

" How many units of UTF-16 a text has; the octets of a text that so many units take.
function! s:Units(text) abort
  return strchars(a:text) + len(filter(split(a:text, '\zs'), "char2nr(v:val) > 0xffff"))
endfunction

function! s:Octets(text, units) abort
  let [left, octets] = [a:units, 0]
  for it in split(a:text, '\zs')
    let left -= char2nr(it) > 0xffff ? 2 : 1
    if left < 0
      break
    endif
    let octets += len(it)
  endfor
  return octets
endfunction

function! s:Uri(buffer) abort
  let path = fnamemodify(bufname(a:buffer), ":p")
  return "file://" . substitute(path, '[^A-Za-z0-9/._~-]', '\=printf("%%%02X", char2nr(submatch(0)))', "g")
endfunction

function! s:Named() abort
  return {"textDocument": {"uri": s:Uri(bufnr())}}
endfunction

" The cursor, as the protocol has a position.
function! s:Placed() abort
  return extend(s:Named(), {"position": {"line": line(".") - 1, "character": s:Units(strpart(getline("."), 0, col(".") - 1))}})
endfunction

function! s:Text() abort
  return join(getline(1, "$"), "\n") . "\n"
endfunction

function! s:Tell(method, params) abort
  if type(s:job) == v:t_job && job_status(s:job) ==# "run"
    call ch_sendexpr(s:job, {"method": a:method, "params": a:params})
  endif
endfunction

" The answer to a request, or nothing.
function! s:Ask(method, params) abort
  if type(s:job) != v:t_job || job_status(s:job) !=# "run"
    return v:null
  endif
  let found = ch_evalexpr(s:job, {"method": a:method, "params": a:params}, {"timeout": s:waits})
  return type(found) == v:t_dict ? get(found, "result", v:null) : v:null
endfunction

" Shows what is told: faults are underlined, and stand in the location list of each window of the buffer.
function! s:Told(channel, message) abort
  if get(a:message, "method", "") ==# "window/showMessage"
    echomsg a:message.params.message
  elseif get(a:message, "method", "") ==# "textDocument/publishDiagnostics"
    for it in getbufinfo({"bufloaded": 1})
      if getbufvar(it.bufnr, "rohcfn_lsp", 0) && s:Uri(it.bufnr) ==# a:message.params.uri
        call s:Show(it.bufnr, a:message.params.diagnostics)
      endif
    endfor
  endif
endfunction

function! s:Show(buffer, diagnostics) abort
  call prop_remove({"type": "rohcfnFault", "bufnr": a:buffer, "all": v:true})
  let list = []
  for it in a:diagnostics
    let [start, end] = [it.range.start, it.range.end]
    let [first, last] = [get(getbufline(a:buffer, start.line + 1), 0, ""), get(getbufline(a:buffer, end.line + 1), 0, "")]
    let [begin, behind] = [s:Octets(first, start.character) + 1, s:Octets(last, end.character) + 1]
    if end.line > start.line || behind > begin
      silent! call prop_add(start.line + 1, begin, {"type": "rohcfnFault", "bufnr": a:buffer, "end_lnum": end.line + 1, "end_col": behind})
    endif
    let text = get(it, "code", "") . " " . join(split(it.message, "\n"), "; ")
    call add(list, {"bufnr": a:buffer, "lnum": start.line + 1, "col": begin, "type": "EWIN"[it.severity - 1], "text": trim(text)})
  endfor
  for it in win_findbuf(a:buffer)
    call setloclist(it, [], "r", {"title": "rohcfn", "items": list})
  endfor
endfunction

function! s:Start() abort
  if type(s:job) == v:t_job && job_status(s:job) ==# "run"
    return
  endif
  let s:job = job_start([get(g:, "rohcfn_command", "rohcfn"), "lsp"], {"in_mode": "lsp", "out_mode": "lsp", "err_io": "null", "noblock": 1, "out_cb": function("s:Told")})
  call s:Ask("initialize", {"processId": getpid(), "rootUri": v:null, "capabilities": {}})
  call s:Tell("initialized", {})
endfunction

function! s:Open() abort
  call extend(b:, {"rohcfn_tick": b:changedtick})
  call s:Tell("textDocument/didOpen", {"textDocument": {"uri": s:Uri(bufnr()), "languageId": "rohcfn", "version": b:changedtick, "text": s:Text()}})
endfunction

function! s:Change() abort
  if b:rohcfn_tick != b:changedtick
    let b:rohcfn_tick = b:changedtick
    call s:Tell("textDocument/didChange", {"textDocument": {"uri": s:Uri(bufnr()), "version": b:changedtick}, "contentChanges": [{"text": s:Text()}]})
  endif
endfunction

" What the name below the cursor means.
function! RohcfnHover() abort
  call s:Change()
  let found = s:Ask("textDocument/hover", s:Placed())
  if type(found) == v:t_dict
    call popup_atcursor(split(found.contents.value, "\n"), {"padding": [0, 1, 0, 1]})
  endif
endfunction

" Goes to the definition of the name below the cursor.
function! RohcfnDefinition() abort
  call s:Change()
  let found = s:Ask("textDocument/definition", s:Placed())
  if type(found) == v:t_dict
    normal! m'
    let start = found.range.start
    call cursor(start.line + 1, s:Octets(getline(start.line + 1), start.character) + 1)
  endif
endfunction

" Lists where what the name below the cursor stands for is named.
function! RohcfnReferences() abort
  call s:Change()
  let list = []
  for it in s:Ask("textDocument/references", extend(s:Placed(), {"context": {"includeDeclaration": v:true}})) ?? []
    let line = getline(it.range.start.line + 1)
    call add(list, {"bufnr": bufnr(), "lnum": it.range.start.line + 1, "col": s:Octets(line, it.range.start.character) + 1, "text": line})
  endfor
  call setqflist([], " ", {"title": "references", "items": list})
endfunction

" Lays the text out.
function! RohcfnFormat() abort
  call s:Change()
  for it in s:Ask("textDocument/formatting", extend(s:Named(), {"options": {"tabSize": 2, "insertSpaces": v:true}})) ?? []
    let lines = split(it.newText, "\n", 1)
    let [start, end] = [it.range.start, it.range.end]
    let lines[0] = strpart(getline(start.line + 1), 0, s:Octets(getline(start.line + 1), start.character)) . lines[0]
    let lines[-1] .= strpart(getline(end.line + 1), s:Octets(getline(end.line + 1), end.character))
    let [view, last] = [winsaveview(), min([end.line + 1, line("$")])]
    call append(last, lines[-1] ==# "" && end.line >= line("$") ? lines[:-2] : lines)
    call deletebufline("", start.line + 1, last)
    call winrestview(view)
  endfor
endfunction

" What may be written at the cursor, for CTRL-X CTRL-O.
function! RohcfnOffers(findstart, base) abort
  if a:findstart
    return match(strpart(getline("."), 0, col(".") - 1), '\w*$')
  endif
  call s:Change()
  let found = s:Ask("textDocument/completion", s:Placed())
  let items = type(found) == v:t_dict ? found.items : []
  return map(filter(items, "stridx(v:val.label, a:base) == 0"), '{"word": v:val.label, "menu": get(v:val, "detail", "")}')
endfunction

call s:Start()
call s:Open()
augroup rohcfn_lsp
  autocmd! * <buffer>
  autocmd TextChanged,TextChangedI,TextChangedP <buffer> call s:Change()
  autocmd BufWritePost <buffer> call s:Change() | call s:Tell("textDocument/didSave", s:Named())
  autocmd BufUnload <buffer> call s:Tell("textDocument/didClose", {"textDocument": {"uri": s:Uri(str2nr(expand("<abuf>")))}})
augroup END
setlocal omnifunc=RohcfnOffers
nnoremap <buffer> <silent> K :call RohcfnHover()<CR>
nnoremap <buffer> <silent> gd :call RohcfnDefinition()<CR>
nnoremap <buffer> <silent> gr :call RohcfnReferences()<CR>
command! -buffer RohcfnFormat call RohcfnFormat()

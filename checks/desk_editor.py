"""Trials of checks/desk on the language server editors/server: by neovim, if it is installed, and by
a client written here."""
import json
import os
import re
import shutil
import subprocess
import sys

from desk_texts import CLEAN, LAID_OUT, LOOSE, TOP, kept

SERVER = os.path.join(TOP, "editors", "server")
SECONDS = 120
URI = "file:///some.rv"
# What neovim is to do: it opens a file, waits for diagnostics, and writes what it gets for requests.
NEOVIM = """
local path, server, python, out = os.getenv('RV'), os.getenv('SERVER'), os.getenv('PYTHON'), {}
vim.cmd('edit ' .. path)
local client = vim.lsp.start_client({ cmd = { python, server }, root_dir = '/' })
vim.lsp.buf_attach_client(0, client)
vim.wait(60000, function() return #vim.diagnostic.get(0) > 0 end, 20)
out.diagnostics = vim.diagnostic.get(0)
for _, one in ipairs(out.diagnostics) do one.user_data = nil end
local function ask(method, line, column, more)
  local params = { textDocument = vim.lsp.util.make_text_document_params(),
                   position = { line = line, character = column } }
  for name, value in pairs(more or {}) do params[name] = value end
  local got = vim.lsp.buf_request_sync(0, 'textDocument/' .. method, params, 60000)
  return got and got[client] and got[client].result
end
out.hover = ask('hover', tonumber(os.getenv('LINE')), tonumber(os.getenv('COLUMN')))
out.definition = ask('definition', tonumber(os.getenv('LINE')), tonumber(os.getenv('COLUMN')))
out.references = ask('references', tonumber(os.getenv('LINE')), tonumber(os.getenv('COLUMN')),
                     { context = { includeDeclaration = true } })
local edits = ask('formatting', 0, 0, { options = { tabSize = 2, insertSpaces = true } })
vim.lsp.util.apply_text_edits(edits or {}, 0, 'utf-16')
out.formatted = table.concat(vim.api.nvim_buf_get_lines(0, 0, -1, false), '\\n') .. '\\n'
io.stdout:write('OUT' .. vim.fn.json_encode(out))
vim.cmd('qa!')
"""


class Client:
    """A client of the server, which writes requests and reads what comes."""

    def __init__(self, tried):
        self.process = subprocess.Popen([sys.executable, SERVER], stdin=subprocess.PIPE,
                                        stdout=subprocess.PIPE, env=tried.environment)
        self.number = 0

    def write(self, **message):
        """Writes a message."""
        text = json.dumps(dict(message, jsonrpc="2.0")).encode()
        self.process.stdin.write(b"Content-Length: %d\r\n\r\n%s" % (len(text), text))
        self.process.stdin.flush()

    def read(self):
        """Reads a message."""
        length = int(self.process.stdout.readline().split(b":")[1])
        self.process.stdout.readline()
        return json.loads(self.process.stdout.read(length).decode())

    def ask(self, method, **asked):
        """The answer to a request: its result or its error."""
        self.number += 1
        self.write(id=self.number, method=method, params=asked)
        while True:
            message = self.read()
            if message.get("id") == self.number:
                return message.get("result") if "result" in message else message["error"]

    def open(self, text):
        """Opens a text; its diagnostics."""
        self.write(method="textDocument/didOpen", params={"textDocument": {
            "uri": URI, "languageId": "rvc", "version": 1, "text": text}})
        return self.read()["params"]["diagnostics"]

    def at(self, method, line, column, **more):
        """The answer to a request on a place, counted from 0."""
        return self.ask("textDocument/" + method, textDocument={"uri": URI},
                        position={"line": line, "character": column}, **more)


def place_of(text, words, behind=0):
    """Where words are in a text, or so many characters on: line and column, counted from 0."""
    at = text.index(words) + behind
    return text.count("\n", 0, at), at - text.rfind("\n", 0, at) - 1


def lines(locations):
    """The lines of locations, counted from 1."""
    return [one["range"]["start"]["line"] + 1 for one in locations]


def try_server(tried):
    """A client of its own: diagnostics, hover, names, completion, layout, and what isn't right."""
    client = Client(tried)
    able = client.ask("initialize", capabilities={})["capabilities"]
    tried.see("server: capabilities", able["hoverProvider"] and able["renameProvider"], able)
    client.write(method="initialized", params={})
    tried.see("server: nothing wrong", client.open(CLEAN) == [], "diagnostics")
    # `count` of the home is in lines 8, 12, 15, 16 and 19, and that of the remote in others.
    where = place_of(CLEAN, "give(count) goto Taken", 6)
    tried.see("server: definition", lines(client.at("definition", *where)) == [8], "another line")
    uses = lines(client.at("references", *where, context={"includeDeclaration": False}))
    tried.see("server: references", sorted(uses) == [12, 15, 16, 19], uses)
    hover = client.at("hover", *where)["contents"]["value"]
    tried.see("server: hover", "var count int 4 = 0;" in hover and "of the home, line 8" in hover, hover)
    hover = client.at("hover", *place_of(CLEAN, "back(count)"))["contents"]["value"]
    tried.see("server: hover of a message", "message back up int 4;" in hover, hover)
    hover = client.at("hover", *place_of(CLEAN, "atmost"))["contents"]["value"]
    tried.see("server: hover of a word", "at most M remotes" in hover, hover)
    renamed = client.at("rename", *place_of(CLEAN, "state Taken", 6), newName="Lent")["changes"][URI]
    tried.see("server: rename", sorted(one["range"]["start"]["line"] + 1 for one in renamed)
              == [12, 15, 18], renamed)
    tried.see("server: a bad name", "code" in client.at("rename", *where, newName="goto"), "renamed")
    complete_at_places(tried, client)
    find_problems(tried, client)
    client.open(LOOSE)
    edits = client.at("formatting", 0, 0, options={})
    tried.see("server: formatting", [edit["newText"] for edit in edits] == [LAID_OUT], edits)
    symbols = client.ask("textDocument/documentSymbol", textDocument={"uri": URI})
    tried.see("server: symbols", [one["name"] for one in symbols] == ["a", "b", "j", "A", "R"], symbols)
    tried.see("server: no such method", client.ask("textDocument/fly").get("code") == -32601, "")
    client.ask("shutdown")
    client.write(method="exit")
    tried.see("server: its status", client.process.wait(SECONDS) == 0, "not 0")
    client.process.stdin.close()
    client.process.stdout.close()


# What stands before the cursor of a file that begins as CLEAN, and what may come there.
COMPLETED = [
    ("    from any holder ? ask goto ", ["Free", "Asked", "Taken"]),
    ("    from any holder ? ", ["ask", "back"]),
    ("    to any holder in waiting ! ", ["give"]),
    ("    to holder ! give(count) goto T", ["Free", "Asked", "Taken"]),
    ("remote {\n  var count int 4 = 0;\n  start ", ["Idle", "Ask", "Wait", "Use", "Back"]),
    ("    to home ! ", ["ask", "back"]), ("    from home ? ", ["give"]),
    ("claim atmost 1 in ", ["Idle", "Ask", "Wait", "Use", "Back"]),
    ("    tau when ", ["count", "holder", "waiting", "none", "empty"]),
    ("  state Asked {\n    ", ["tau", "from", "to"]),
]


def complete_at_places(tried, client):
    """What may come at places of a file that goes on."""
    for before, expected in COMPLETED:
        at = CLEAN.index(re.sub("T$", "", before)) + len(before)
        found = client.at("completion", CLEAN.count("\n", 0, at), at - CLEAN.rfind("\n", 0, at) - 1)
        labels = [one["label"] for one in found]
        tried.see("server: completion behind %r" % before, set(expected) <= set(labels)
                  and (len(expected) == 4 or set(labels) - {"none", "empty", "any", "}", "home"}
                       <= set(expected)), labels)
    client.open("protocol p;\nmessage ask up;\nmessage give down;\nhome {\n  var x node = none;\n  "
                "start A;\n  state A {\n    from any x ? ")
    labels = [one["label"] for one in client.at("completion", 7, 17)]
    tried.see("server: completion in half a file", labels == ["ask"], labels)


def find_problems(tried, client):
    """Faults and advice: line, code, severity."""
    for old, new, line, code, says in (
            ("goto Taken;", "goto Takn;", 12, 13, "Is `Taken` meant?"),
            ("message ask up;", "message ask up", 3, 1, "may come"),
            ("give(count) do", "give(holder) do", 12, 14, "carries an int"),
            ("when count lt 3", "when count eq 4", 36, None, "never holds")):
        found = client.open(CLEAN.replace(old, new, 1))
        good = len(found) == 1 and found[0]["range"]["start"]["line"] + 1 == line and (
            found[0].get("code") == code and says in found[0]["message"])
        tried.see("server: %s" % new, good and found[0]["severity"] == (3 if code is None else 1), found)
        if code is not None:
            hover = client.at("hover", line - 1, found[0]["range"]["start"]["character"])
            tried.see("server: hover of code %d" % code,
                      "## Code %d: " % code in hover["contents"]["value"], hover)
    found = client.open("protocol p;\n// \u00fc\U0001f600 a comment\nmessage a up;\n")
    tried.see("server: letters beyond ASCII", found[0]["range"]["start"]["line"] == 3, found)


def try_neovim(tried):
    """neovim, a real client, if it is installed."""
    with tried.if_installed():
        open_in_neovim(tried)


def open_in_neovim(tried):
    """Diagnostics, hover, definition, references, and layout."""
    if not shutil.which("nvim"):
        print("desk: not tried: neovim, which isn't installed")
        return
    text = LOOSE.replace("message b", "message c up; message b").replace("a//what", "a//what")
    line, column = place_of(text, "to j!b", 3)
    with kept(text) as path:
        environment = dict(tried.environment, RV=path, SERVER=SERVER, PYTHON=sys.executable,
                           LINE=str(line), COLUMN=str(column), HOME=os.path.dirname(path),
                           XDG_STATE_HOME=os.path.dirname(path))
        script = os.path.join(os.path.dirname(path), "try.lua")
        with open(script, "w", encoding="utf-8") as file:
            file.write(NEOVIM)
        done = subprocess.run(["nvim", "--headless", "-n", "-u", "NONE", "-c", "luafile " + script],
                              stdout=subprocess.PIPE, stderr=subprocess.STDOUT, timeout=SECONDS,
                              env=environment, stdin=subprocess.DEVNULL, check=False)
    told = done.stdout.decode("utf-8", "replace").partition("OUT")[2]
    if not tried.see("neovim", told.startswith("{"), done.stdout[-600:]):
        return
    out = json.loads(told)
    tried.see("neovim: diagnostics", any(one["lnum"] == 5 and "`c` isn't used" in one["message"]
                                         for one in out["diagnostics"]), out["diagnostics"])
    tried.see("neovim: hover", "var j node = none;" in out["hover"]["contents"]["value"], out["hover"])
    tried.see("neovim: definition", lines(out["definition"]) == [7], out["definition"])
    tried.see("neovim: references", sorted(lines(out["references"])) == [7, 9, 11], out["references"])
    expected = LAID_OUT.replace("message b", "message c up;\nmessage b")
    tried.see("neovim: layout", out["formatted"] == expected, out["formatted"])

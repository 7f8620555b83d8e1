"""The remote's controller."""
from design import bits_for, place_text
from expressions import Scope, completed, first_value, grouped
from text import block, case, choice, filled, indented

REMOTE = """
// The controller of a remote of @name@: at most one step a clock.
//
// It takes packets off its down link and puts packets on its up link. A local step of the protocol
// is taken if the port asks for it. Each row of the controller is a comment before the
// lines that it became.
//
@table@
module @name@_remote (
  input  logic clk,
  input  logic rst,
  // The link from the home.
  input  logic                             down_valid,
  input  logic [@pkg@::DOWN_WIDTH-1:0] down_packet,
  output logic                             down_ready,
  // The link to the home.
  output logic                           up_valid,
  output logic [@pkg@::UP_WIDTH-1:0] up_packet,
  input  logic                           up_ready,
  // The local step that is asked for, by its guard in the present state (@pkg@::LOCAL_..).
  // It is taken in a clock in which local_ready is high.
  input  logic                                    local_valid,
  input  logic [@pkg@::REMOTE_GUARD_WIDTH-1:0] local_guard,
  output logic                                    local_ready,
  // Which kinds of step may be taken in this clock, and which one is. All ones lets the remote run.
  input  logic [@pkg@::REMOTE_STEPS-1:0] step_allow,
  output logic [@pkg@::REMOTE_STEPS-1:0] step,
  // The guard of a local step or an answer, and whether the step is an event of the protocol.
  output logic [@pkg@::REMOTE_GUARD_WIDTH-1:0] step_guard,
  output logic                                    step_event,
  output logic [@pkg@::REMOTE_STATE_WIDTH-1:0] state
);
  logic [@pkg@::REMOTE_STATE_WIDTH-1:0] state_q, state_d;
  // The request of the home that came and isn't answered yet.
  logic                                    slot_valid_q, slot_valid_d;
  logic [@pkg@::DOWN_MESSAGE_WIDTH-1:0] slot_message_q, slot_message_d;
  logic [@pkg@::DOWN_VALUE_WIDTH-1:0]   slot_value_q, slot_value_d;
  // The variables of the protocol.
  @declared@

  // The first packet on the down link.
  logic [1:0]                              arrived_kind;
  logic [@pkg@::DOWN_MESSAGE_WIDTH-1:0] arrived_message;
  logic [@pkg@::DOWN_VALUE_WIDTH-1:0]   arrived_value;
  assign {arrived_kind, arrived_message, arrived_value} = down_packet;

  // The packet for the up link.
  logic [1:0]                            put_kind;
  logic [@pkg@::UP_MESSAGE_WIDTH-1:0] put_message;
  logic [@pkg@::UP_VALUE_WIDTH-1:0]   put_value;
  assign up_packet = {put_kind, put_message, put_value};

  // ---- which steps are enabled

  logic can_tau, can_answer, can_send, can_reply;
  @enabled@

  // A packet comes first, then what the home waits for, then what the remote wants itself: of those
  // that are allowed the one with the highest bit, which is the order of the bits of a step.
  logic [@pkg@::REMOTE_STEPS-1:0] can;
  assign can = {down_valid, can_reply, can_answer, can_send, can_tau} & step_allow;
  assign step[4] = can[4];
  assign step[3] = can[3] && can[4:4] == '0;
  assign step[2] = can[2] && can[4:3] == '0;
  assign step[1] = can[1] && can[4:2] == '0;
  assign step[0] = can[0] && can[4:1] == '0;
  assign down_ready  = step[@pkg@::REMOTE_STEP_DOWN];
  assign local_ready = step[@pkg@::REMOTE_STEP_TAU];
  assign state       = state_q;

  // ---- what the step does

  always @* begin
    state_d        = state_q;
    slot_valid_d   = slot_valid_q;
    slot_message_d = slot_message_q;
    slot_value_d   = slot_value_q;
    @kept@
    up_valid    = 1'b0;
    put_kind    = @pkg@::KIND_REQUEST;
    put_message = '0;
    put_value   = '0;
    step_guard  = '0;
    step_event  = 1'b0;
    @steps@
  end

  always_ff @(posedge clk) begin
    if (rst) begin
      state_q        <= @pkg@::@start@;
      slot_valid_q   <= 1'b0;
      slot_message_q <= '0;
      slot_value_q   <= '0;
      @first@
    end else begin
      state_q        <= state_d;
      slot_valid_q   <= slot_valid_d;
      slot_message_q <= slot_message_d;
      slot_value_q   <= slot_value_d;
      @stored@
    end
  end

  // Not every protocol looks at all of these.
  logic unused;
  assign unused = &{1'b0, local_valid, local_guard, up_ready, arrived_kind, arrived_message, arrived_value, slot_valid_q,
                    slot_message_q, slot_value_q@unused@};

`ifndef SYNTHESIS
  // A step needs room on the up link; the links are deep enough that it always finds it.
  always_ff @(posedge clk) if (!rst) begin
    assert ((step & (step - 1'b1)) == '0) else $error("two steps in one clock");
    assert (!(down_ready && arrived_kind == @pkg@::KIND_REQUEST && slot_valid_q))
      else $error("a request comes to a full slot");
    assert (up_ready || !(@wants_room@)) else $error("a step finds no room on the up link");
    @bounds@
  end
`endif
endmodule
"""


def signal(name):
    """The register of a variable."""
    return "var_%s_q" % name


def next_signal(name):
    """What goes into the register of a variable."""
    return "var_%s_d" % name


def place_table(design, controller):
    """The places as a table in a comment."""
    lines, pkg = [], design.name + "_pkg"
    named = [(controller.constants[place], place_text(place)) for place in controller.places()]
    widest = max(len(constant) for constant, _ in named)
    for constant, text in named:
        lines.append("//   %s  %s" % (constant.ljust(widest), text))
    unreached = [row.text() for row in controller.rows if not row.fires]
    if unreached:
        lines += ["//", "// Left out, since nothing leads there:"] + ["//   " + text for text in unreached]
    return ["// Its places (of %s), and how the table writes them:" % pkg] + lines


def declarations(design, controller):
    """The variables: declared, kept, first and stored, as lines each."""
    declared, kept, first, stored = [], [], [], []
    for name, kind in controller.types.items():
        text = " ".join(map(str, kind))
        declared.append("logic [%d:0] %s, %s;  // %s %s" % (
            design.width(kind) - 1, signal(name), next_signal(name), name, text))
        kept.append("%s = %s;" % (next_signal(name), signal(name)))
        first.append("%s <= %s;" % (signal(name), first_value(design, kind, controller.first[name])))
        stored.append("%s <= %s;" % (signal(name), next_signal(name)))
    return dict(declared=declared, kept=kept, first=first, stored=stored)


def bounds(design, controller):
    """Assertions that variables are of their types, where their bits allow more."""
    lines = []
    for name, kind in controller.types.items():
        if kind[0] == "int" and kind[1] < 1 << design.width(kind):
            lines.append('assert (%s < %d\'d%d) else $error("%s is out of range");' % (
                signal(name), design.width(kind), kind[1], name))
        if kind[0] == "node" and design.remotes < 1 << design.id_width:
            lines.append('assert (%s[%d:0] < %d\'d%d) else $error("%s is out of range");' % (
                signal(name), design.id_width - 1, design.id_width, design.remotes, name))
    return lines


class Remote:
    """The remote's module."""

    def __init__(self, design):
        self.design = design
        self.pkg = design.name + "_pkg"
        self.controller = design.remote
        self.now = Scope(design, design.remote.types, signal)
        self.next = Scope(design, design.remote.types, next_signal)
        self.guard_width = bits_for(design.guard_count(design.remote))

    def constant(self, place):
        """The constant of a place."""
        return "%s::%s" % (self.pkg, self.controller.constants[place])

    def message(self, name):
        """The constant of a message."""
        return "%s::%s" % (self.pkg, self.design.messages[name].constant)

    def number(self, guard):
        """A guard's number."""
        return "%d'd%d" % (self.guard_width, guard.number)

    def complete(self, guard, value):
        """The assignments that complete a guard."""
        return completed(self.next, guard, None, value)

    def move(self, row):
        """The step to the next place."""
        return ["state_d = %s;" % self.constant(row.to)]

    def put(self, kind, guard=None):
        """A packet on the up link."""
        lines = ["up_valid = 1'b1;", "put_kind = %s::KIND_%s;" % (self.pkg, kind)]
        if guard:
            lines += ["put_message = %s;" % self.message(guard.message),
                      "put_value = %s;" % self.now.payload(guard, "up")]
        return lines

    # ---- which steps are enabled

    def enabled(self):
        """What each place can do, besides taking a packet."""
        arms = {}
        for place, rows in self.controller.of_state(self.controller.fired("tau", "send", "answer")).items():
            lines = []
            taus = [self.tau_open(self.controller.guard(row)) for row in rows if row.on.startswith("tau")]
            if taus:
                lines.append("can_tau = local_valid && (%s);" % " || ".join(taus))
            if any(row.on.startswith("send") for row in rows):
                lines.append("can_%s = up_ready;" % ("reply" if place[1] else "send"))
            if any(row.on.startswith("answer") for row in rows):
                lines.append("can_answer = slot_valid_q && up_ready;")
            arms[self.constant(place)] = lines
        none = ["can_%s = 1'b0;" % step for step in ("tau", "answer", "send", "reply")]
        return block("always @*", none + case("state_q", arms)) if arms else ["assign " + line for line in none]

    def tau_open(self, guard):
        """That a local step is asked for and open."""
        condition = self.now.condition(guard)
        asked = "local_guard == %s" % self.number(guard)
        return "(%s && %s)" % (asked, condition) if condition else "(%s)" % asked

    def wants_room(self):
        """That a step waits for room on the up link."""
        places = [place for place in self.controller.of_state(self.controller.fired("send"))]
        texts = ["state_q == %s" % self.constant(place) for place in places]
        return " || ".join(texts) or "1'b0"

    # ---- what the step does

    def steps(self):
        """The steps, each by the rows that it fires."""
        arms = []
        for step, words, lines_of in (("TAU", "tau", self.taus), ("ANSWER", "answer", self.answers),
                                      ("SEND", "send", self.sends), ("REPLY", "send", self.replies)):
            rows = [row for row in self.controller.fired(words) if words != "send"
                    or bool(row.at[1]) == (step == "REPLY")]
            found = {self.constant(place): lines_of(group)
                     for place, group in self.controller.of_state(rows).items()}
            if found:
                arms.append(("step[%s::REMOTE_STEP_%s]" % (self.pkg, step), case("state_q", found)))
        arms.append(("step[%s::REMOTE_STEP_DOWN]" % self.pkg, self.arrivals()))
        return choice(arms)

    def taus(self, rows):
        """The local steps of a place."""
        lines = ["step_guard = local_guard;", "step_event = 1'b1;"]
        for row in rows:
            guard = self.controller.guard(row)
            lines += ["// %s    %s" % (row.text(), guard.text)]
            lines += block("if (local_guard == %s)" % self.number(guard),
                           self.complete(guard, None) + self.move(row))
        return lines

    def sends(self, rows):
        """The request of an active state."""
        guard = self.controller.guard(rows[0])
        return ["// %s    %s" % (rows[0].text(), guard.text), "slot_valid_d = 1'b0;"] + \
            self.put("REQUEST", guard) + self.move(rows[0])

    def replies(self, rows):
        """The reply of a due place."""
        guard = self.controller.guard(rows[0])
        return ["// %s    %s" % (rows[0].text(), guard.text), "step_event = 1'b1;"] + \
            self.put("REPLY", guard) + self.complete(guard, None) + self.move(rows[0])

    def answers(self, rows):
        """The answer to the request in the slot: by the first open input of its message, or a nack."""
        arms = []
        for row in rows:
            if row.on == "answer none":
                arms.append(("", ["// " + row.text()] + self.put("NACK")))
                continue
            guard = self.controller.guard(row)
            condition = self.now.condition(guard)
            asked = "slot_message_q == %s" % self.message(guard.message)
            lines = ["// %s    %s" % (row.text(), guard.text), "step_guard = %s;" % self.number(guard),
                     "step_event = 1'b1;"]
            lines += self.put("ACK") if row.puts == "ack" else []
            arms.append(("%s && %s" % (asked, condition) if condition else asked,
                         lines + self.complete(guard, "slot_value_q") + self.move(row)))
        return ["slot_valid_d = 1'b0;"] + choice(arms)

    def arrivals(self):
        """A packet arrives: an answer, or a request of the home, which goes to the slot of an idle
        remote and is dropped by one that waits."""
        arms = {}
        for place in self.controller.places():
            if place[1] == "!":
                arms[self.constant(place)] = []
            if place[1] == "*":
                arms[self.constant(place)] = case("arrived_kind", self.got(place))
        held = ["slot_valid_d   = 1'b1;", "slot_message_d = arrived_message;", "slot_value_d   = arrived_value;"]
        return case("state_q", arms, block("if (arrived_kind == %s::KIND_REQUEST)" % self.pkg, held))

    def got(self, place):
        """The answers for which a place waits."""
        arms = {}
        for row in self.controller.fired("got"):
            if row.at != place:
                continue
            kind = row.on.split()[1].upper()
            guard = self.controller.guard(row)
            lines = ["// " + row.text()]
            if kind != "NACK":
                lines += self.complete(guard, None)
            if kind == "REPLY":
                lines += self.complete(self.controller.guards[guard.goto][0], "arrived_value")
            arms["%s::KIND_%s" % (self.pkg, kind)] = lines + self.move(row)
        return arms

    def lines(self):
        """The module."""
        variables = declarations(self.design, self.controller)
        unused = "".join(", " + signal(name) for name in self.controller.types)
        return filled(
            REMOTE, name=self.design.name, pkg=self.pkg, table=place_table(self.design, self.controller),
            enabled=self.enabled(), steps=self.steps(), start=self.controller.constants[self.controller.start],
            wants_room=self.wants_room(), bounds=bounds(self.design, self.controller), unused=unused, **variables)

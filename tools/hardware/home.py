"""The home's controller."""
from design import bits_for
from expressions import Scope, completed
from remote import bounds, declarations, next_signal, place_table, signal
from text import block, case, choice, filled

HOME = """
// The home's controller of @name@: at most one step a clock.
//
// It takes packets off the up links, holds the requests that it can't take yet, and puts packets on
// the down links. Which of the enabled steps is taken is chosen by an arbiter. Each row of the
// controller is a comment before the lines that it became.
//
@table@
module @name@_home #(
  parameter ARBITER = @pkg@::ARBITER_ROUND_ROBIN
) (
  input  logic clk,
  input  logic rst,
  // The links from the remotes. In a clock the first packet of at most one of them is taken.
  input  logic [@pkg@::REMOTES-1:0]                     up_valid,
  input  logic [@pkg@::REMOTES*@pkg@::UP_WIDTH-1:0] up_packet,
  output logic [@pkg@::REMOTES-1:0]                     up_ready,
  // The links to the remotes. In a clock a packet is put on at most one of them.
  output logic [@pkg@::REMOTES-1:0]    down_valid,
  output logic [@pkg@::DOWN_WIDTH-1:0] down_packet,
  input  logic [@pkg@::REMOTES-1:0]    down_ready,
  // Which local steps may be taken, by guard, and which kinds of step. All ones lets the home run.
  input  logic [@pkg@::HOME_GUARDS-1:0] local_allow,
  input  logic [@pkg@::HOME_STEPS-1:0]  step_allow,
  // The step to take, if ARBITER is ARBITER_PORT; it is taken if it is enabled.
  input  logic [@pkg@::HOME_STEPS-1:0]       choice_step,
  input  logic [@pkg@::HOME_GUARD_WIDTH-1:0] choice_guard,
  input  logic [@pkg@::ID_WIDTH-1:0]         choice_remote,
  // The step that is taken, its guard and its remote, and whether it is an event of the protocol.
  output logic [@pkg@::HOME_STEPS-1:0]       step,
  output logic [@pkg@::HOME_GUARD_WIDTH-1:0] step_guard,
  output logic [@pkg@::ID_WIDTH-1:0]         step_remote,
  output logic                                   step_event,
  output logic [@pkg@::HOME_STATE_WIDTH-1:0] state
);
  localparam REMOTES = @pkg@::REMOTES;
  localparam ENTRIES = @pkg@::ENTRIES;
  localparam GUARDS = @pkg@::HOME_GUARDS;
  localparam ID_WIDTH = @pkg@::ID_WIDTH;
  localparam UP_MESSAGE_WIDTH = @pkg@::UP_MESSAGE_WIDTH;
  localparam UP_VALUE_WIDTH = @pkg@::UP_VALUE_WIDTH;
  localparam UP_MESSAGES = @up_message_count@;
  localparam UP_WIDTH = @pkg@::UP_WIDTH;
  localparam DOWN_MESSAGE_WIDTH = @pkg@::DOWN_MESSAGE_WIDTH;
  localparam DOWN_VALUE_WIDTH = @pkg@::DOWN_VALUE_WIDTH;
  localparam CANDIDATES = GUARDS + REMOTES + GUARDS*REMOTES + REMOTES + REMOTES;

  logic [@pkg@::HOME_STATE_WIDTH-1:0] state_q, state_d;
  // The remote that the home waits on, in a place that waits.
  logic [ID_WIDTH-1:0] wait_on_q, wait_on_d;
  // The held requests: entry 0 came first, and the valid entries are the lowest ones.
  logic [ENTRIES-1:0]                  held_valid_q, held_valid_d;
  logic [ENTRIES*ID_WIDTH-1:0]         held_from_q, held_from_d;
  logic [ENTRIES*UP_MESSAGE_WIDTH-1:0] held_message_q, held_message_d;
  logic [ENTRIES*UP_VALUE_WIDTH-1:0]   held_value_q, held_value_d;
  // The remotes to which a reply is owed.
  logic [REMOTES-1:0] owed_q, owed_d;
  @owed_declared@
  // The variables of the protocol.
  @declared@

  assign state = state_q;

  // ---- what the guards of the present state allow

  // The state of the protocol: that in which the home is or, while it waits, that which it left.
  logic waiting;
  logic [@pkg@::HOME_STATE_WIDTH-1:0] comm_state;
  @waiting@

  // tau_open: open local steps. send_to: for each guard the remotes to which an open output may go,
  // and send_message its message. useful: for each message the remotes whose request of it would
  // complete a guard.
  logic [GUARDS-1:0]                    tau_open;
  logic [GUARDS*REMOTES-1:0]            send_to;
  logic [GUARDS*DOWN_MESSAGE_WIDTH-1:0] send_message;
  logic [UP_MESSAGES*REMOTES-1:0]       useful;
  @guards_declared@
  @guards@
  @guards_joined@

  // held_set: the remotes of which a request is held. useful_set: those whose held request completes
  // a guard.
  logic [REMOTES-1:0]  held_set, useful_set;
  logic [ID_WIDTH-1:0] last_from;
  always @* begin
    held_set   = '0;
    useful_set = '0;
    last_from  = '0;
    for (int i = 0; i < ENTRIES; i++) if (held_valid_q[i]) begin
      held_set   = held_set | @pkg@::id_set(held_from_q[i*ID_WIDTH +: ID_WIDTH]);
      useful_set = useful_set | (@pkg@::id_set(held_from_q[i*ID_WIDTH +: ID_WIDTH])
                                 & useful[held_message_q[i*UP_MESSAGE_WIDTH +: UP_MESSAGE_WIDTH]*REMOTES +: REMOTES]);
      last_from  = held_from_q[i*ID_WIDTH +: ID_WIDTH];
    end
  end

  // How full the slots are: @slots@ requests, all but one, all but two.
  logic held_all, held_all_but_one, held_all_but_two;
  assign held_all         = @held_all@;
  assign held_all_but_one = @held_all_but_one@;
  assign held_all_but_two = @held_all_but_two@;

  // ---- which steps are enabled

  // Whether the home may send a request of its own: it takes before it asks, and keeps the last slots.
  logic may_request;
  assign may_request = useful_set == '0 && !held_all_but_one;

  // The remotes that are targets of some open output.
  logic [REMOTES-1:0] output_set;
  always @* begin
    output_set = '0;
    for (int g = 0; g < GUARDS; g++) output_set = output_set | send_to[g*REMOTES +: REMOTES];
  end

  logic [GUARDS-1:0]         want_tau;
  logic [REMOTES-1:0]        want_take, want_drop;
  logic [GUARDS*REMOTES-1:0] want_send;
  assign want_tau  = waiting ? '0 : tau_open & local_allow;
  assign want_take = waiting ? '0 : useful_set;
  // A reply to a remote that is owed this message; else a request, to one that is owed none.
  for (genvar g = 0; g < GUARDS; g++) begin : by_guard
    logic [REMOTES-1:0] owed_this;
    @owed_this@
    assign want_send[g*REMOTES +: REMOTES] = waiting ? '0 : send_to[g*REMOTES +: REMOTES]
      & (owed_this | (~owed_q & ~held_set & {REMOTES{may_request}}));
  end
  // A request that can't be taken is given up if the home wants to send and it is in the way.
  assign want_drop = (waiting || useful_set != '0 || output_set == '0) ? '0
    : held_set & (output_set | {REMOTES{held_all_but_one}});

  // A step needs room on the down link to which it may put a packet.
  logic [CANDIDATES-1:0] want, room, allow, can;
  assign want  = {up_valid, want_drop, want_send, want_take, want_tau};
  assign room  = {down_ready & {REMOTES{!held_all || |(down_ready & @pkg@::id_set(last_from))}},
                  down_ready, {GUARDS{down_ready}}, down_ready, {GUARDS{1'b1}}};
  assign allow = {{REMOTES{step_allow[@pkg@::HOME_STEP_UP]}}, {REMOTES{step_allow[@pkg@::HOME_STEP_DROP]}},
                  {GUARDS*REMOTES{step_allow[@pkg@::HOME_STEP_SEND]}}, {REMOTES{step_allow[@pkg@::HOME_STEP_TAKE]}},
                  {GUARDS{step_allow[@pkg@::HOME_STEP_TAU]}}};
  assign can   = want & room & allow;

  // ---- the arbiter

  logic [CANDIDATES-1:0] chosen;
  if (ARBITER == @pkg@::ARBITER_PORT) begin : arbiter
    logic [REMOTES-1:0]        choice_set;
    logic [GUARDS-1:0]         guard_set;
    logic [GUARDS*REMOTES-1:0] send_set;
    assign choice_set = @pkg@::id_set(choice_remote);
    for (genvar g = 0; g < GUARDS; g++) begin : decode
      assign guard_set[g] = choice_guard == @guard_width@'(g);
      assign send_set[g*REMOTES +: REMOTES] = choice_set & {REMOTES{guard_set[g]}};
    end
    assign chosen = can & {choice_set & {REMOTES{choice_step[@pkg@::HOME_STEP_UP]}},
                           choice_set & {REMOTES{choice_step[@pkg@::HOME_STEP_DROP]}},
                           send_set & {GUARDS*REMOTES{choice_step[@pkg@::HOME_STEP_SEND]}},
                           choice_set & {REMOTES{choice_step[@pkg@::HOME_STEP_TAKE]}},
                           guard_set & {GUARDS{choice_step[@pkg@::HOME_STEP_TAU]}}};
  end else if (ARBITER == @pkg@::ARBITER_FIXED) begin : arbiter
    assign chosen = can & (~can + 1'b1);
  end else begin : arbiter
    // The next candidate after the one that was chosen last.
    logic [CANDIDATES-1:0] after_q, later;
    assign later  = can & after_q;
    assign chosen = later != '0 ? later & (~later + 1'b1) : can & (~can + 1'b1);
    always_ff @(posedge clk) begin
      if (rst) after_q <= '0;
      else if (chosen != '0) after_q <= ~(chosen | (chosen - 1'b1));
    end
  end

  logic [GUARDS-1:0]         do_tau;
  logic [REMOTES-1:0]        do_take, do_drop, do_up;
  logic [GUARDS*REMOTES-1:0] do_send;
  assign {do_up, do_drop, do_send, do_take, do_tau} = chosen;
  assign step     = {|do_up, |do_drop, |do_send, |do_take, |do_tau};
  assign up_ready = do_up;

  // The remote of the step.
  logic [REMOTES-1:0]  partner_set;
  logic [ID_WIDTH-1:0] partner;
  always @* begin
    partner_set = do_take | do_drop | do_up;
    for (int g = 0; g < GUARDS; g++) partner_set = partner_set | do_send[g*REMOTES +: REMOTES];
  end
  assign partner     = @pkg@::set_id(partner_set);
  assign step_remote = partner;

  // ---- the request that is taken, and the packet that arrives

  logic [UP_MESSAGE_WIDTH-1:0] taken_message;
  logic [UP_VALUE_WIDTH-1:0]   taken_value;
  always @* begin
    taken_message = '0;
    taken_value   = '0;
    for (int i = 0; i < ENTRIES; i++) begin
      if (held_valid_q[i] && held_from_q[i*ID_WIDTH +: ID_WIDTH] == partner) begin
        taken_message = taken_message | held_message_q[i*UP_MESSAGE_WIDTH +: UP_MESSAGE_WIDTH];
        taken_value   = taken_value | held_value_q[i*UP_VALUE_WIDTH +: UP_VALUE_WIDTH];
      end
    end
  end

  logic [UP_WIDTH-1:0]         arrived;
  logic [1:0]                  arrived_kind;
  logic [UP_MESSAGE_WIDTH-1:0] arrived_message;
  logic [UP_VALUE_WIDTH-1:0]   arrived_value;
  always @* begin
    arrived = '0;
    for (int j = 0; j < REMOTES; j++) if (do_up[j]) arrived = arrived | up_packet[j*UP_WIDTH +: UP_WIDTH];
  end
  assign {arrived_kind, arrived_message, arrived_value} = arrived;

  // Whether a request that comes is kept: it gets the progress slot, the last free one, only if it
  // completes a guard, and while the home waits one more slot is kept for an answer that is a request.
  // If there is no slot, it may displace the last held request, which is then nacked.
  logic is_useful, is_kept, is_displacing;
  assign is_useful     = |(useful[arrived_message*REMOTES +: REMOTES] & partner_set);
  assign is_kept       = waiting ? !held_all_but_two || (!held_all_but_one && is_useful)
                                 : !held_all_but_one || (!held_all && is_useful);
  assign is_displacing = !waiting && held_all && is_useful && useful_set == '0;

  // ---- what the step does

  logic [1:0]                    put_kind;
  logic [DOWN_MESSAGE_WIDTH-1:0] put_message;
  logic [DOWN_VALUE_WIDTH-1:0]   put_value;
  logic                          put, owe, pay, remove, hold, displace;
  @owe_declared@
  always @* begin
    state_d   = state_q;
    wait_on_d = wait_on_q;
    @kept@
    put         = 1'b0;
    put_kind    = @pkg@::KIND_ACK;
    put_message = '0;
    put_value   = '0;
    owe         = 1'b0;
    pay         = 1'b0;
    @owe_kept@
    remove      = 1'b0;
    hold        = 1'b0;
    displace    = 1'b0;
    step_guard  = '0;
    step_event  = 1'b0;
    @steps@
  end

  assign down_valid  = !put ? '0 : displace ? @pkg@::id_set(last_from) : partner_set;
  assign down_packet = {put_kind, put_message, put_value};

  assign owed_d = owe ? owed_q | partner_set : pay ? owed_q & ~partner_set : owed_q;
  @owed_next@

  // One that leaves lets those after it move up. A new request is held last: in the first free entry
  // and in those after it, which aren't looked at until then, or in the entry of the last request,
  // which it displaces.
  assign held_valid_d = remove ? held_valid_q >> 1 : hold ? (held_valid_q << 1) | @one_entry@ : held_valid_q;
  logic [ENTRIES-1:0] leaves, moves, enters;
  assign moves = remove ? ~(leaves - 1'b1) : '0;
  for (genvar i = 0; i < ENTRIES; i++) begin : entry
    assign leaves[i] = held_valid_q[i] && held_from_q[i*ID_WIDTH +: ID_WIDTH] == partner;
    assign enters[i] = (hold && !held_valid_q[i]) || (displace && held_from_q[i*ID_WIDTH +: ID_WIDTH] == last_from);
    // The entry after this one, if there is one.
    localparam NEXT = i + 1 < ENTRIES ? i + 1 : i;
    assign held_from_d[i*ID_WIDTH +: ID_WIDTH] = enters[i] ? partner
      : moves[i] ? held_from_q[NEXT*ID_WIDTH +: ID_WIDTH] : held_from_q[i*ID_WIDTH +: ID_WIDTH];
    assign held_message_d[i*UP_MESSAGE_WIDTH +: UP_MESSAGE_WIDTH] = enters[i] ? arrived_message
      : moves[i] ? held_message_q[NEXT*UP_MESSAGE_WIDTH +: UP_MESSAGE_WIDTH]
      : held_message_q[i*UP_MESSAGE_WIDTH +: UP_MESSAGE_WIDTH];
    assign held_value_d[i*UP_VALUE_WIDTH +: UP_VALUE_WIDTH] = enters[i] ? arrived_value
      : moves[i] ? held_value_q[NEXT*UP_VALUE_WIDTH +: UP_VALUE_WIDTH]
      : held_value_q[i*UP_VALUE_WIDTH +: UP_VALUE_WIDTH];
  end

  always_ff @(posedge clk) begin
    if (rst) begin
      state_q        <= @pkg@::@start@;
      wait_on_q      <= '0;
      held_valid_q   <= '0;
      held_from_q    <= '0;
      held_message_q <= '0;
      held_value_q   <= '0;
      owed_q         <= '0;
      @owed_first@
      @first@
    end else begin
      state_q        <= state_d;
      wait_on_q      <= wait_on_d;
      held_valid_q   <= held_valid_d;
      held_from_q    <= held_from_d;
      held_message_q <= held_message_d;
      held_value_q   <= held_value_d;
      owed_q         <= owed_d;
      @owed_stored@
      @stored@
    end
  end

  // Not every protocol looks at all of these, and each arbiter at its own.
  logic unused;
  assign unused = &{1'b0, choice_step, choice_guard, choice_remote, comm_state, send_message, useful, arrived,
                    arrived_kind, arrived_message, arrived_value, taken_message, taken_value, wait_on_q, held_all,
                    held_all_but_one, held_all_but_two, do_tau, last_from, is_kept, is_displacing@unused@};

`ifndef SYNTHESIS
  always_ff @(posedge clk) if (!rst) begin
    assert ((chosen & (chosen - 1'b1)) == '0) else $error("two steps in one clock");
    assert ((held_valid_q & (held_valid_q + 1'b1)) == '0) else $error("a free entry lies between held requests");
    assert (!(waiting && held_all)) else $error("the ack slot is taken while the home waits");
    assert (!(hold && |(held_set & partner_set))) else $error("two requests of one remote are held");
    assert ((want & room) == want) else $error("a step finds no room on a down link");
    @bounds@
  end
`endif
endmodule
"""


class Home:
    """The home's module."""

    def __init__(self, design):
        self.design = design
        self.pkg = design.name + "_pkg"
        self.controller = design.home
        self.now = Scope(design, design.home.types, signal)
        self.next = Scope(design, design.home.types, next_signal)
        self.guard_width = bits_for(design.guard_count(design.home))
        self.owed = design.owed()

    def constant(self, place):
        """The constant of a place."""
        return "%s::%s" % (self.pkg, self.controller.constants[place])

    def message(self, name):
        """The constant of a message."""
        return "%s::%s" % (self.pkg, self.design.messages[name].constant)

    def number(self, guard):
        """A guard's number."""
        return "%d'd%d" % (self.guard_width, guard.number)

    def complete(self, guard, value):
        """The assignments that complete a guard with the partner of the step."""
        return completed(self.next, guard, "partner", value)

    def move(self, row):
        """The step to the next place."""
        return ["state_d = %s;" % self.constant(row.to)]

    def put(self, kind, guard=None):
        """A packet on a down link."""
        lines = ["put = 1'b1;", "put_kind = %s::KIND_%s;" % (self.pkg, kind)]
        if guard:
            lines += ["put_message = %s;" % self.message(guard.message),
                      "put_value = %s;" % self.now.payload(guard, "down")]
        return lines

    def held_at_least(self, count):
        """That so many requests are held."""
        if count <= 0:
            return "1'b1"
        return "held_valid_q[%d]" % (count - 1) if count <= self.design.entries else "1'b0"

    # ---- what the guards allow

    def waiting(self):
        """Which places wait, and which state each has left."""
        arms = {self.constant(place): ["waiting    = 1'b1;",
                                       "comm_state = %s;" % self.constant((place[0], "", 0))]
                for place in self.controller.places() if place[1]}
        if not arms:
            return ["assign waiting    = 1'b0;", "assign comm_state = state_q;"]
        return block("always @*", ["waiting    = 1'b0;", "comm_state = state_q;"] + case("state_q", arms))

    def guards(self):
        """What the guards of each state allow."""
        arms = {}
        rows = self.controller.fired("tau", "take", "send", "pay")
        for place, group in self.controller.of_state(rows).items():
            numbers = list(dict.fromkeys(row.number for row in group))
            lines = []
            for number in numbers:
                lines += self.guard_lines(self.controller.guards[place[0]][number])
            arms[self.constant(place)] = lines
        none = ["%s = '0;" % name for name in self.guard_names()]
        return block("always @*", none + case("comm_state", arms)) if arms else ["assign " + line for line in none]

    def guard_names(self):
        """The signals that `guards` sets."""
        return [name for _, _, names in self.guard_signals() for name in names]

    def guard_signals(self):
        """The vectors of what the guards allow: of each its name, the width of a part, and the parts."""
        numbers = list(range(self.design.guard_count(self.controller)))
        messages = ["useful_%s" % message.constant.lower() for message in self.design.going("up")] or ["useful_none"]
        return [("tau_open", "", ["tau_open_%d" % number for number in numbers]),
                ("send_to", "[REMOTES-1:0] ", ["send_to_%d" % number for number in numbers]),
                ("send_message", "[DOWN_MESSAGE_WIDTH-1:0] ", ["send_message_%d" % number for number in numbers]),
                ("useful", "[REMOTES-1:0] ", messages)]

    def guard_parts(self):
        """The signals of `guards`: declared, and joined into vectors."""
        parts = self.guard_signals()
        return dict(
            guards_declared=["logic %s%s;" % (width, ", ".join(names)) for _, width, names in parts],
            guards_joined=["assign %s = {%s};" % (joined, ", ".join(reversed(names))) for joined, _, names in parts],
            up_message_count=len(parts[3][2]))

    def guard_lines(self, guard):
        """What a guard allows where it is open."""
        if guard.kind == "tau":
            lines = ["tau_open_%d = 1'b1;" % guard.number]
        elif guard.kind == "to":
            lines = ["send_to_%d = %s;" % (guard.number, self.now.targets(guard)),
                     "send_message_%d = %s;" % (guard.number, self.message(guard.message))]
        else:
            piece = "useful_%s" % self.design.messages[guard.message].constant.lower()
            lines = ["%s = %s | %s;" % (piece, piece, self.now.targets(guard))]
        condition = self.now.condition(guard)
        comment = ["// %d: %s" % (guard.number, guard.text)]
        return comment + (block("if (%s)" % condition, lines) if condition else lines)

    # ---- what the step does

    def steps(self):
        """The steps, each by the rows that it fires."""
        arms = []
        for step, words, lines_of in (("TAU", ("tau",), self.taus), ("TAKE", ("take",), self.takes),
                                      ("SEND", ("send", "pay"), self.sends)):
            found = {self.constant(place): lines_of(rows)
                     for place, rows in self.controller.of_state(self.controller.fired(*words)).items()}
            if found:
                arms.append(("step[%s::HOME_STEP_%s]" % (self.pkg, step), case("state_q", found)))
        arms.append(("step[%s::HOME_STEP_DROP]" % self.pkg,
                     ["// A held request is given up: its sender may ask again.", "remove = 1'b1;"] + self.put("NACK")))
        arms.append(("step[%s::HOME_STEP_UP]" % self.pkg, self.arrivals()))
        return choice(arms)

    def taus(self, rows):
        """The local steps of a state."""
        lines = ["step_event = 1'b1;"]
        for row in rows:
            guard = self.controller.guard(row)
            lines += ["// %s    %s" % (row.text(), guard.text)]
            lines += block("if (do_tau[%d])" % guard.number, ["step_guard = %s;" % self.number(guard)]
                           + self.complete(guard, None) + self.move(row))
        return lines

    def takes(self, rows):
        """The held request of the partner is taken, by the first guard that it completes."""
        arms = []
        for row in rows:
            guard = self.controller.guard(row)
            tests = ["taken_message == %s" % self.message(guard.message), self.now.condition(guard)]
            if len(guard.partner) != 2:
                tests.append("|(%s & partner_set)" % self.now.targets(guard))
            lines = ["// %s    %s" % (row.text(), guard.text), "step_guard = %s;" % self.number(guard)]
            lines += self.put("ACK") if row.puts == "ack" else self.owes(row.puts[4:])
            arms.append((" && ".join(test for test in tests if test),
                         lines + self.complete(guard, "taken_value") + self.move(row)))
        return ["step_event = 1'b1;", "remove = 1'b1;"] + choice(arms)

    def owes(self, name):
        """The partner is owed this message."""
        lines = ["owe = 1'b1;"]
        return lines + ["owe_message = %s;" % self.message(name)] if len(self.owed) > 1 else lines

    def sends(self, rows):
        """An output: as the reply that is owed, or as a request on whose answer the home waits."""
        lines, by_guard = [], {}
        for row in rows:
            by_guard.setdefault(row.number, []).append(row)
        for number, group in by_guard.items():
            arms = []
            for row in sorted(group, key=lambda row: row.on.startswith("send")):
                guard = self.controller.guard(row)
                comment = ["// %s    %s" % (row.text(), guard.text)]
                if row.on.startswith("pay"):
                    arms.append(("|(owed_q & partner_set)", comment + ["step_event = 1'b1;", "pay = 1'b1;"]
                                 + self.put("REPLY", guard) + self.complete(guard, None) + self.move(row)))
                else:
                    arms.append(("", comment + self.put("REQUEST", guard) + ["wait_on_d = partner;"]
                                 + self.move(row)))
            body = choice(arms) if len(arms) > 1 else arms[0][1]
            lines += block("if (|do_send[%d*REMOTES +: REMOTES])" % number,
                           ["step_guard = %d'd%d;" % (self.guard_width, number)] + body)
        return lines

    def arrivals(self):
        """A packet arrives: an answer on which the home waits, or a request."""
        arms = {self.constant(place): case("arrived_kind", self.got(place))
                for place in self.controller.places() if place[1]}
        requests = choice([("is_kept", ["hold = 1'b1;"]),
                           ("is_displacing", ["displace = 1'b1;"] + self.put("NACK")),
                           ("", self.put("NACK"))])
        request = "arrived_kind == %s::KIND_REQUEST" % self.pkg
        if not arms:
            return block("if (%s)" % request, requests)
        return choice([("waiting && wait_on_q == partner", case("state_q", arms)), (request, requests)])

    def got(self, place):
        """The answers for which a place waits."""
        arms = {}
        for row in self.controller.fired("got"):
            if row.at != place:
                continue
            kind = row.on.split()[1].upper()
            guard = self.controller.guard(row)
            lines = ["// " + row.text()]
            if kind in ("ACK", "REPLY"):
                lines += self.complete(guard, None)
            if kind == "REPLY":
                lines += self.complete(self.controller.guards[guard.goto][0], "arrived_value")
            if kind == "REQUEST":
                lines += ["// It crossed the home's own request, and goes to the ack slot.", "hold = 1'b1;"]
            arms["%s::KIND_%s" % (self.pkg, kind)] = lines + self.move(row)
        return arms

    # ---- debts

    def owed_parts(self):
        """What depends on how many messages may be owed."""
        if len(self.owed) > 1:
            each = "owed_message_%s[j*DOWN_MESSAGE_WIDTH +: DOWN_MESSAGE_WIDTH]"
            return dict(
                owed_declared=["logic [REMOTES*DOWN_MESSAGE_WIDTH-1:0] owed_message_q, owed_message_d;"],
                owed_this=["for (genvar j = 0; j < REMOTES; j++) begin : by_remote",
                           "  assign owed_this[j] = owed_q[j]",
                           "    && %s == send_message[g*DOWN_MESSAGE_WIDTH +: DOWN_MESSAGE_WIDTH];" % (each % "q"),
                           "end"],
                owe_declared=["logic [DOWN_MESSAGE_WIDTH-1:0] owe_message;"], owe_kept=["owe_message = '0;"],
                owed_next=["for (genvar j = 0; j < REMOTES; j++) begin : debt",
                           "  assign %s = owe && partner_set[j]" % (each % "d"),
                           "    ? owe_message : %s;" % (each % "q"), "end"],
                owed_first=["owed_message_q <= '0;"], owed_stored=["owed_message_q <= owed_message_d;"])
        parts = {part: [] for part in ("owed_declared", "owed_this", "owe_declared", "owe_kept", "owed_next",
                                       "owed_first", "owed_stored")}
        parts["owed_this"] = ["assign owed_this = '0;"]
        if self.owed:
            parts["owed_this"] = ["assign owed_this = send_message[g*DOWN_MESSAGE_WIDTH +: DOWN_MESSAGE_WIDTH] == %s ? owed_q : '0;"
                                  % self.message(self.owed[0].name)]
        return parts

    def lines(self):
        """The module."""
        design = self.design
        variables = declarations(design, self.controller)
        unused = "".join(", " + signal(name) for name in self.controller.types)
        return filled(
            HOME, name=design.name, pkg=self.pkg, table=place_table(design, self.controller), slots=design.slots,
            guard_width=self.guard_width, waiting=self.waiting(), guards=self.guards(), steps=self.steps(),
            held_all=self.held_at_least(design.slots), held_all_but_one=self.held_at_least(design.slots - 1),
            held_all_but_two=self.held_at_least(design.slots - 2), **self.guard_parts(),
            one_entry="%d'd1" % design.entries, start=self.controller.constants[self.controller.start],
            bounds=bounds(design, self.controller), unused=unused, **self.owed_parts(), **variables)

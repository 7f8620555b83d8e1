"""The package of a design, and its links."""
from text import filled, indented

PACKAGE = """
// @name@: what its controllers share. Mode @mode@, @remotes@ remotes, @slots@ slots at the home.
// Written by tools/rtl from the protocol's tables; not to be edited. What is combinational is in
// always @*, since Icarus Verilog 11 runs some blocks of always_comb without end.
/* verilator lint_off UNUSEDPARAM */
package @name@_pkg;
  localparam REMOTES = @remotes@;
  // The home's slots. At most one request of each remote is held, so there are registers for
  // ENTRIES requests; SLOTS says when a request is kept or refused.
  localparam SLOTS = @slots@;
  localparam ENTRIES = @entries@;
  // What the links have to hold: more is never in flight.
  localparam UP_DEPTH = 2;
  localparam DOWN_DEPTH = 3;

  // The number of a remote. A node is a bit that says whether there is one, and the number, which is 0
  // if not. A set has a bit for each remote.
  localparam ID_WIDTH = @id_width@;
  localparam NODE_WIDTH = @node_width@;

  // Packets are {kind, message, value}. An ack and a nack have zeros for message and value; a value
  // that is narrower than the field has zeros before it.
  typedef enum logic [1:0] { KIND_REQUEST, KIND_REPLY, KIND_ACK, KIND_NACK } kind_e;
  @up_messages@
  @down_messages@
  localparam UP_MESSAGE_WIDTH = @up_message_width@;
  localparam DOWN_MESSAGE_WIDTH = @down_message_width@;
  localparam UP_VALUE_WIDTH = @up_value_width@;
  localparam DOWN_VALUE_WIDTH = @down_value_width@;
  localparam UP_WIDTH = @up_width@;
  localparam DOWN_WIDTH = @down_width@;

  // The states of the controllers: those of the protocol, those that wait for the answer to a
  // request (_WAIT), and those that owe the home a reply (_DUE).
  @home_places@
  @remote_places@
  localparam HOME_STATE_WIDTH = @home_state_width@;
  localparam REMOTE_STATE_WIDTH = @remote_state_width@;

  // Guards of a state are counted from 0, as in the protocol.
  localparam HOME_GUARDS = @home_guards@;
  localparam HOME_GUARD_WIDTH = @home_guard_width@;
  localparam REMOTE_GUARD_WIDTH = @remote_guard_width@;

  // Local steps of a remote, as its port local_guard names them: one guard of one state each.
  @local_steps@

  // The bits of a step, one-hot. HOME_STEP_UP and REMOTE_STEP_DOWN take a packet off a link.
  localparam HOME_STEPS = 5;
  localparam HOME_STEP_TAU = 0;
  localparam HOME_STEP_TAKE = 1;
  localparam HOME_STEP_SEND = 2;
  localparam HOME_STEP_DROP = 3;
  localparam HOME_STEP_UP = 4;
  localparam REMOTE_STEPS = 5;
  localparam REMOTE_STEP_TAU = 0;
  localparam REMOTE_STEP_SEND = 1;
  localparam REMOTE_STEP_ANSWER = 2;
  localparam REMOTE_STEP_REPLY = 3;
  localparam REMOTE_STEP_DOWN = 4;

  // How the home chooses among its steps.
  localparam ARBITER_ROUND_ROBIN = 0;
  localparam ARBITER_FIXED = 1;
  localparam ARBITER_PORT = 2;

  // The set of this one remote.
  function automatic logic [REMOTES-1:0] id_set(input logic [ID_WIDTH-1:0] id);
    id_set = @remotes@'d1 << id;
  endfunction

  // The set of the remote of a node, empty if it has none.
  function automatic logic [REMOTES-1:0] node_set(input logic [NODE_WIDTH-1:0] node);
    node_set = node[ID_WIDTH] ? id_set(node[ID_WIDTH-1:0]) : @remotes@'d0;
  endfunction

  // The set with the remote of a node, and without it; whether it has it.
  function automatic logic [REMOTES-1:0] set_with(input logic [REMOTES-1:0] set, input logic [NODE_WIDTH-1:0] node);
    set_with = set | node_set(node);
  endfunction
  function automatic logic [REMOTES-1:0] set_without(input logic [REMOTES-1:0] set, input logic [NODE_WIDTH-1:0] node);
    set_without = set ^ (set & node_set(node));
  endfunction
  function automatic logic set_has(input logic [REMOTES-1:0] set, input logic [NODE_WIDTH-1:0] node);
    set_has = (set & node_set(node)) != @remotes@'d0;
  endfunction

  // The number of the one remote of a set.
  function automatic logic [ID_WIDTH-1:0] set_id(input logic [REMOTES-1:0] set);
    set_id = {@id_bits@};
  endfunction
endpackage
/* verilator lint_on UNUSEDPARAM */
"""

LINK = """
// A link: a FIFO of registers, in order and without loss. A packet that is put in one clock can be
// taken in the next at the earliest; nothing passes through within a clock.
module @name@_link #(
  parameter WIDTH = 8,
  parameter DEPTH = 3
) (
  input  logic             clk,
  input  logic             rst,
  input  logic             put_valid,
  input  logic [WIDTH-1:0] put_packet,
  output logic             put_ready,
  output logic             take_valid,
  output logic [WIDTH-1:0] take_packet,
  input  logic             take_ready
);
  // Entry 0 is the first packet; the valid entries are the lowest ones.
  logic [DEPTH-1:0]       valid_q, valid_d;
  logic [DEPTH*WIDTH-1:0] packet_q, packet_d;

  assign put_ready   = !valid_q[DEPTH-1];
  assign take_valid  = valid_q[0];
  assign take_packet = packet_q[WIDTH-1:0];

  // A take moves all entries up; a put goes to the first free entry, and to those after it, which
  // aren't looked at until then.
  logic                   takes, puts;
  logic [DEPTH-1:0]       valid_left;
  logic [DEPTH*WIDTH-1:0] packet_left;
  assign takes       = take_valid && take_ready;
  assign puts        = put_valid && put_ready;
  assign valid_left  = takes ? valid_q >> 1 : valid_q;
  assign packet_left = takes ? packet_q >> WIDTH : packet_q;
  assign valid_d     = puts ? {valid_left[DEPTH-2:0], 1'b1} : valid_left;
  for (genvar i = 0; i < DEPTH; i++) begin : entry
    assign packet_d[i*WIDTH +: WIDTH] = puts && !valid_left[i] ? put_packet : packet_left[i*WIDTH +: WIDTH];
  end

  always_ff @(posedge clk) begin
    if (rst) begin
      valid_q  <= '0;
      packet_q <= '0;
    end else begin
      valid_q  <= valid_d;
      packet_q <= packet_d;
    end
  end

`ifndef SYNTHESIS
  always_ff @(posedge clk) if (!rst) begin
    assert (!put_valid || put_ready) else $error("a packet is put on a full link");
    assert (!take_ready || take_valid) else $error("a packet is taken off an empty link");
  end
`endif
endmodule
"""


def enumeration(name, width, constants, comments=None):
    """An enum of these constants, one a line, each with its comment."""
    lines = ["typedef enum logic [%d:0] {" % (width - 1)]
    widest = max(len(constant) for constant in constants)
    for place, constant in enumerate(constants):
        mark = "," if place < len(constants) - 1 else ""
        line = constant + mark
        if comments:
            line = "%s  // %s" % (line.ljust(widest + 1), comments[place])
        lines += indented([line])
    return lines + ["} %s;" % name]


def place_comment(controller, place):
    """What a place is, in words."""
    state, kind, number = place
    if kind == "*":
        return "%s/%d*: left %s with %s, waits" % (state, number, state, controller.guards[state][number].message)
    return "%s/%d!: owes %s" % (state, number, controller.guards[state][number].message) if kind else state


def message_enumeration(design, way):
    """The messages of one way."""
    messages = design.going(way)
    constants = [message.constant for message in messages] or ["%s_NO_MESSAGE" % way.upper()]
    comments = ["%s%s" % (message.name, "(%s)" % " ".join(map(str, message.carries)) if message.carries else "")
                for message in messages] or ["there is no message this way"]
    return enumeration("%s_message_e" % way, design.message_width(way), constants, comments)


def local_steps(design):
    """A constant for each local step of a remote that can be reached."""
    from design import Names, bits_for, upper_case
    names, width = Names(), bits_for(design.guard_count(design.remote))
    lines = []
    for row in design.remote.fired("tau"):
        guard = design.remote.guard(row)
        name = names.give("LOCAL_%s_TO_%s" % (upper_case(row.at[0]), upper_case(guard.goto)))
        lines.append("localparam [%d:0] %s = %d'd%d;" % (width - 1, name, width, guard.number))
    return lines


def package_lines(design):
    """The package."""
    from design import bits_for
    places = {}
    for controller in (design.home, design.remote):
        known = controller.places()
        places[controller.word] = enumeration(
            "%s_state_e" % controller.word, bits_for(len(known)), [controller.constants[place] for place in known],
            [place_comment(controller, place) for place in known])
    return filled(
        PACKAGE, name=design.name, mode=design.mode, remotes=design.remotes, slots=design.slots,
        entries=design.entries, id_width=design.id_width, node_width=design.id_width + 1,
        up_messages=message_enumeration(design, "up"), down_messages=message_enumeration(design, "down"),
        up_message_width=design.message_width("up"), down_message_width=design.message_width("down"),
        up_value_width=design.payload_width("up"), down_value_width=design.payload_width("down"),
        up_width=design.packet_width("up"), down_width=design.packet_width("down"),
        home_places=places["home"], remote_places=places["remote"],
        home_state_width=bits_for(len(design.home.places())),
        remote_state_width=bits_for(len(design.remote.places())),
        home_guards=design.guard_count(design.home),
        home_guard_width=bits_for(design.guard_count(design.home)),
        remote_guard_width=bits_for(design.guard_count(design.remote)),
        local_steps=local_steps(design), id_bits=", ".join(reversed(id_bits(design))))


def id_bits(design):
    """For each bit of a number, lowest first, that the set has a remote whose number has it."""
    masks = [sum(1 << remote for remote in range(design.remotes) if remote >> bit & 1)
             for bit in range(design.id_width)]
    return ["(set & %d'h%x) != %d'd0" % (design.remotes, mask, design.remotes) for mask in masks]


def link_lines(design):
    """The link."""
    return filled(LINK, name=design.name)

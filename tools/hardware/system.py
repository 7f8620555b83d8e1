"""The system: a home, its remotes and the links between them, with the protocol's claims."""
from text import filled

SYSTEM = """
// A home of @name@, @remotes@ remotes, and a link each way between the home and each of them.
module @name@_system #(
  parameter ARBITER = @pkg@::ARBITER_ROUND_ROBIN
) (
  input  logic clk,
  input  logic rst,
  // Local steps of the remotes, for each its part of the vectors, and of the home.
  input  logic [@pkg@::REMOTES-1:0]                                  local_valid,
  input  logic [@pkg@::REMOTES*@pkg@::REMOTE_GUARD_WIDTH-1:0]    local_guard,
  output logic [@pkg@::REMOTES-1:0]                                  local_ready,
  input  logic [@pkg@::HOME_GUARDS-1:0]                              home_local_allow,
  // Which kinds of step may be taken in this clock; all ones lets every controller run.
  input  logic [@pkg@::HOME_STEPS-1:0]                               home_step_allow,
  input  logic [@pkg@::REMOTES*@pkg@::REMOTE_STEPS-1:0]          remote_step_allow,
  // The home's step, if ARBITER is ARBITER_PORT.
  input  logic [@pkg@::HOME_STEPS-1:0]                               choice_step,
  input  logic [@pkg@::HOME_GUARD_WIDTH-1:0]                         choice_guard,
  input  logic [@pkg@::ID_WIDTH-1:0]                                 choice_remote,
  // What is done in this clock, and where the controllers are.
  output logic [@pkg@::HOME_STEPS-1:0]                               home_step,
  output logic [@pkg@::HOME_GUARD_WIDTH-1:0]                         home_step_guard,
  output logic [@pkg@::ID_WIDTH-1:0]                                 home_step_remote,
  output logic                                                           home_step_event,
  output logic [@pkg@::HOME_STATE_WIDTH-1:0]                         home_state,
  output logic [@pkg@::REMOTES*@pkg@::REMOTE_STEPS-1:0]          remote_step,
  output logic [@pkg@::REMOTES*@pkg@::REMOTE_GUARD_WIDTH-1:0]    remote_step_guard,
  output logic [@pkg@::REMOTES-1:0]                                  remote_step_event,
  output logic [@pkg@::REMOTES*@pkg@::REMOTE_STATE_WIDTH-1:0]    remote_state
);
  localparam REMOTES = @pkg@::REMOTES;
  localparam GUARD_WIDTH = @pkg@::REMOTE_GUARD_WIDTH;
  localparam STEPS = @pkg@::REMOTE_STEPS;
  localparam STATE_WIDTH = @pkg@::REMOTE_STATE_WIDTH;
  localparam UP_WIDTH = @pkg@::UP_WIDTH;
  localparam DOWN_WIDTH = @pkg@::DOWN_WIDTH;

  logic [REMOTES-1:0]          up_valid, up_ready, down_valid, down_ready;
  logic [REMOTES*UP_WIDTH-1:0] up_packet;
  logic [DOWN_WIDTH-1:0]       down_packet;

  @name@_home #(.ARBITER(ARBITER)) home (
    .clk(clk), .rst(rst),
    .up_valid(up_valid), .up_packet(up_packet), .up_ready(up_ready),
    .down_valid(down_valid), .down_packet(down_packet), .down_ready(down_ready),
    .local_allow(home_local_allow), .step_allow(home_step_allow),
    .choice_step(choice_step), .choice_guard(choice_guard), .choice_remote(choice_remote),
    .step(home_step), .step_guard(home_step_guard), .step_remote(home_step_remote),
    .step_event(home_step_event), .state(home_state)
  );

  for (genvar j = 0; j < REMOTES; j++) begin : remote
    logic                  put_valid, put_ready, take_valid, take_ready;
    logic [UP_WIDTH-1:0]   put_packet;
    logic [DOWN_WIDTH-1:0] take_packet;

    @name@_remote controller (
      .clk(clk), .rst(rst),
      .down_valid(take_valid), .down_packet(take_packet), .down_ready(take_ready),
      .up_valid(put_valid), .up_packet(put_packet), .up_ready(put_ready),
      .local_valid(local_valid[j]), .local_guard(local_guard[j*GUARD_WIDTH +: GUARD_WIDTH]),
      .local_ready(local_ready[j]),
      .step_allow(remote_step_allow[j*STEPS +: STEPS]), .step(remote_step[j*STEPS +: STEPS]),
      .step_guard(remote_step_guard[j*GUARD_WIDTH +: GUARD_WIDTH]), .step_event(remote_step_event[j]),
      .state(remote_state[j*STATE_WIDTH +: STATE_WIDTH])
    );

    @name@_link #(.WIDTH(UP_WIDTH), .DEPTH(@pkg@::UP_DEPTH)) up_link (
      .clk(clk), .rst(rst),
      .put_valid(put_valid), .put_packet(put_packet), .put_ready(put_ready),
      .take_valid(up_valid[j]), .take_packet(up_packet[j*UP_WIDTH +: UP_WIDTH]), .take_ready(up_ready[j])
    );

    @name@_link #(.WIDTH(DOWN_WIDTH), .DEPTH(@pkg@::DOWN_DEPTH)) down_link (
      .clk(clk), .rst(rst),
      .put_valid(down_valid[j]), .put_packet(down_packet), .put_ready(down_ready[j]),
      .take_valid(take_valid), .take_packet(take_packet), .take_ready(take_ready)
    );
  end
  @claims@
endmodule
"""

CLAIMS = """

`ifndef SYNTHESIS
  // The claims of the file, of the remotes that wait for nothing.
  @declared@
  for (genvar j = 0; j < REMOTES; j++) begin : in_state
    @in_states@
  end
  @counted@
  always_ff @(posedge clk) if (!rst) begin
    @asserted@
  end
`endif
"""


def claim_states(claim):
    """The lists of states of a claim: of `atmost` one list, of `not` two of one state each."""
    words = claim.split()
    if words[0] == "atmost":
        return [list(dict.fromkeys(words[3:]))]
    return [[words[1]], [words[3]]]


def in_states(design, states):
    """That remote j is idle or due in one of these states."""
    controller, pkg = design.remote, design.name + "_pkg"
    piece = "remote_state[j*STATE_WIDTH +: STATE_WIDTH] == %s::%s"
    texts = [piece % (pkg, controller.constants[place]) for place in controller.places()
             if place[0] in states and place[1] != "*"]
    return " || ".join(texts) or "1'b0"


def broken(number, claim):
    """That a claim is broken, over the sets of remotes in its states."""
    words = claim.split()
    if words[0] == "atmost":
        return "claim_%d_count > 7'd%d" % (number, min(int(words[1]), 127))
    if words[1] == words[3]:
        return "(claim_%d_0 & (claim_%d_0 - 1'b1)) != '0" % (number, number)
    return "claim_%d_0 != '0 && claim_%d_1 != '0" % (number, number)


def claim_lines(design):
    """The claims as assertions."""
    if not design.claims:
        return []
    declared, inside, counted, asserted = [], [], [], []
    for number, claim in enumerate(design.claims):
        lists = claim_states(claim)
        sets = ["claim_%d_%d" % (number, place) for place in range(len(lists))]
        declared.append("logic [REMOTES-1:0] %s;" % ", ".join(sets))
        for name, states in zip(sets, lists):
            inside.append("assign %s[j] = %s;" % (name, in_states(design, states)))
        if len(lists) == 1:
            declared.append("logic [6:0] claim_%d_count;" % number)
            counted += ["always @* begin", "  claim_%d_count = '0;" % number,
                        "  for (int j = 0; j < REMOTES; j++) claim_%d_count = claim_%d_count + {6'd0, %s[j]};" % (
                            number, number, sets[0]), "end"]
        asserted.append('assert (!(%s)) else $error("claim %d is broken: %s");' % (broken(number, claim), number, claim))
    return filled(CLAIMS, declared=declared, in_states=inside, counted=counted, asserted=asserted)


def system_lines(design):
    """The system."""
    return filled(SYSTEM, name=design.name, pkg=design.name + "_pkg", remotes=design.remotes,
                  claims=claim_lines(design))

"""The testbench: lockstep from a file of steps, and free runs; with the protocol as a scoreboard."""
from monitor import monitor_lines
from testbench_text import write_value, write_variables
from text import case, filled

TESTBENCH = """
// The testbench of @name@. It is simulated, never synthesized.
//
//   +steps=FILE  lockstep: one step of FILE a clock; the log is the trace that `rvc run` writes. Needs
//                ARBITER_PORT, which is the testbench's own parameter.
//   +clocks=C +seed=S [+busy=B]
//                free: all controllers step at once for C clocks, chosen by S; of 8 clocks each kind of step
//                is allowed in about B (default 6). The log is a schedule for `rvc run`, in each clock
//                the home's step first.
//   +log=FILE    where the log goes.   +end=FILE  where the states at the end go, in a free run.
//   +wave=FILE   a waveform (VCD).
`timescale 1ns/1ps
module @name@_testbench;
  parameter ARBITER = @pkg@::ARBITER_PORT;
  localparam REMOTES = @pkg@::REMOTES;
  localparam ENTRIES = @pkg@::ENTRIES;
  localparam ID_WIDTH = @pkg@::ID_WIDTH;
  localparam NODE_WIDTH = @pkg@::NODE_WIDTH;
  localparam HOME_GUARDS = @pkg@::HOME_GUARDS;
  localparam HOME_GUARD_WIDTH = @pkg@::HOME_GUARD_WIDTH;
  localparam GUARD_WIDTH = @pkg@::REMOTE_GUARD_WIDTH;
  localparam REMOTE_GUARDS = @remote_guards@;
  localparam STEPS = @pkg@::REMOTE_STEPS;
  localparam UP_WIDTH = @pkg@::UP_WIDTH;
  localparam DOWN_WIDTH = @pkg@::DOWN_WIDTH;
  localparam UP_MESSAGE_WIDTH = @pkg@::UP_MESSAGE_WIDTH;
  localparam UP_VALUE_WIDTH = @pkg@::UP_VALUE_WIDTH;
  localparam DOWN_MESSAGE_WIDTH = @pkg@::DOWN_MESSAGE_WIDTH;
  localparam DOWN_VALUE_WIDTH = @pkg@::DOWN_VALUE_WIDTH;
  localparam UP_DEPTH = 2, DOWN_DEPTH = 3;

  logic clk = 1'b0, rst = 1'b1;
  logic [REMOTES-1:0]             local_valid = '0;
  logic [REMOTES*GUARD_WIDTH-1:0] local_guard = '0;
  logic [REMOTES-1:0]             local_ready;
  logic [HOME_GUARDS-1:0]         home_local_allow = '0;
  logic [4:0]                     home_step_allow = '0, choice_step = '0;
  logic [REMOTES*STEPS-1:0]       remote_step_allow = '0;
  logic [HOME_GUARD_WIDTH-1:0]    choice_guard = '0;
  logic [ID_WIDTH-1:0]            choice_remote = '0;
  logic [4:0]                     home_step;
  logic [HOME_GUARD_WIDTH-1:0]    home_step_guard;
  logic [ID_WIDTH-1:0]            home_step_remote;
  logic                           home_step_event;
  logic [@pkg@::HOME_STATE_WIDTH-1:0] home_state;
  logic [REMOTES*STEPS-1:0]       remote_step;
  logic [REMOTES*GUARD_WIDTH-1:0] remote_step_guard;
  logic [REMOTES-1:0]             remote_step_event;
  logic [REMOTES*@pkg@::REMOTE_STATE_WIDTH-1:0] remote_state;

  @name@_system #(.ARBITER(ARBITER)) dut (
    .clk(clk), .rst(rst), .local_valid(local_valid), .local_guard(local_guard), .local_ready(local_ready),
    .home_local_allow(home_local_allow), .home_step_allow(home_step_allow), .remote_step_allow(remote_step_allow),
    .choice_step(choice_step), .choice_guard(choice_guard), .choice_remote(choice_remote),
    .home_step(home_step), .home_step_guard(home_step_guard), .home_step_remote(home_step_remote),
    .home_step_event(home_step_event), .home_state(home_state), .remote_step(remote_step),
    .remote_step_guard(remote_step_guard), .remote_step_event(remote_step_event), .remote_state(remote_state)
  );

  // ---- what is inside, by remote

  logic [@pkg@::REMOTE_STATE_WIDTH-1:0] at_remote [0:REMOTES-1];
  logic                      slot_valid [0:REMOTES-1];
  logic [DOWN_MESSAGE_WIDTH-1:0] slot_message [0:REMOTES-1];
  logic [DOWN_VALUE_WIDTH-1:0]   slot_value [0:REMOTES-1];
  logic [UP_DEPTH-1:0]       up_valid [0:REMOTES-1];
  logic [UP_DEPTH*UP_WIDTH-1:0] up_packets [0:REMOTES-1];
  logic [DOWN_DEPTH-1:0]     down_valid [0:REMOTES-1];
  logic [DOWN_DEPTH*DOWN_WIDTH-1:0] down_packets [0:REMOTES-1];
  logic [UP_WIDTH-1:0]       put_up [0:REMOTES-1];
  @peek_declared@
  for (genvar j = 0; j < REMOTES; j++) begin : peek
    assign at_remote[j]    = dut.remote[j].controller.state_q;
    assign slot_valid[j]   = dut.remote[j].controller.slot_valid_q;
    assign slot_message[j] = dut.remote[j].controller.slot_message_q;
    assign slot_value[j]   = dut.remote[j].controller.slot_value_q;
    assign up_valid[j]     = dut.remote[j].up_link.valid_q;
    assign up_packets[j]   = dut.remote[j].up_link.packet_q;
    assign down_valid[j]   = dut.remote[j].down_link.valid_q;
    assign down_packets[j] = dut.remote[j].down_link.packet_q;
    assign put_up[j]       = dut.remote[j].put_packet;
    @peeked@
  end

  // ---- texts, as `rvc run` writes them

  integer log;
  integer i, k, first;

  task write_node(input logic [NODE_WIDTH-1:0] node);
    if (node[ID_WIDTH]) $fwrite(log, "#%0d", node[ID_WIDTH-1:0]);
    else $fwrite(log, "none");
  endtask

  task write_set(input logic [REMOTES-1:0] set);
    begin
      $fwrite(log, "{");
      first = 1;
      for (k = 0; k < REMOTES; k = k + 1) if (set[k]) begin
        if (!first) $fwrite(log, ",");
        $fwrite(log, "%0d", k);
        first = 0;
      end
      $fwrite(log, "}");
    end
  endtask

  task write_up_message(input logic [UP_MESSAGE_WIDTH-1:0] message, input logic [UP_VALUE_WIDTH-1:0] value);
    @up_messages@
  endtask

  task write_down_message(input logic [DOWN_MESSAGE_WIDTH-1:0] message, input logic [DOWN_VALUE_WIDTH-1:0] value);
    @down_messages@
  endtask

  task write_up_packet(input logic [UP_WIDTH-1:0] packet);
    case (packet[UP_WIDTH-1 -: 2])
      @pkg@::KIND_ACK: $fwrite(log, "+");
      @pkg@::KIND_NACK: $fwrite(log, "-");
      default: begin
        if (packet[UP_WIDTH-1 -: 2] == @pkg@::KIND_REQUEST) $fwrite(log, "?");
        else $fwrite(log, "=");
        write_up_message(packet[UP_VALUE_WIDTH +: UP_MESSAGE_WIDTH], packet[UP_VALUE_WIDTH-1:0]);
      end
    endcase
  endtask

  task write_down_packet(input logic [DOWN_WIDTH-1:0] packet);
    case (packet[DOWN_WIDTH-1 -: 2])
      @pkg@::KIND_ACK: $fwrite(log, "+");
      @pkg@::KIND_NACK: $fwrite(log, "-");
      default: begin
        if (packet[DOWN_WIDTH-1 -: 2] == @pkg@::KIND_REQUEST) $fwrite(log, "?");
        else $fwrite(log, "=");
        write_down_message(packet[DOWN_VALUE_WIDTH +: DOWN_MESSAGE_WIDTH], packet[DOWN_VALUE_WIDTH-1:0]);
      end
    endcase
  endtask

  task write_home;
    begin
      $fwrite(log, "  home ");
      @home_place@
      @home_variables@
      $fwrite(log, " held[");
      for (i = 0; i < ENTRIES; i = i + 1) if (dut.home.held_valid_q[i]) begin
        if (i > 0) $fwrite(log, ",");
        $fwrite(log, "%0d:", dut.home.held_from_q[i*ID_WIDTH +: ID_WIDTH]);
        write_up_message(dut.home.held_message_q[i*UP_MESSAGE_WIDTH +: UP_MESSAGE_WIDTH],
                         dut.home.held_value_q[i*UP_VALUE_WIDTH +: UP_VALUE_WIDTH]);
      end
      $fwrite(log, "] owed[");
      first = 1;
      for (i = 0; i < REMOTES; i = i + 1) if (dut.home.owed_q[i]) begin
        if (!first) $fwrite(log, ",");
        $fwrite(log, "%0d:", i);
        first = 0;
        @owed@
      end
      $fwrite(log, "]\\n");
    end
  endtask

  task write_remote(input integer j);
    begin
      $fwrite(log, "  remote %0d ", j);
      @remote_place@
      @remote_variables@
      $fwrite(log, " slot[");
      if (slot_valid[j]) write_down_message(slot_message[j], slot_value[j]);
      $fwrite(log, "] up[");
      for (i = 0; i < UP_DEPTH; i = i + 1) if (up_valid[j][i]) begin
        if (i > 0) $fwrite(log, ",");
        write_up_packet(up_packets[j][i*UP_WIDTH +: UP_WIDTH]);
      end
      $fwrite(log, "] down[");
      for (i = 0; i < DOWN_DEPTH; i = i + 1) if (down_valid[j][i]) begin
        if (i > 0) $fwrite(log, ",");
        write_down_packet(down_packets[j][i*DOWN_WIDTH +: DOWN_WIDTH]);
      end
      $fwrite(log, "]\\n");
    end
  endtask

  integer n;
  task write_states;
    begin
      $fwrite(log, "end\\n");
      write_home;
      for (n = 0; n < REMOTES; n = n + 1) write_remote(n);
      $fwrite(log, "abstract\\n");
      write_protocol;
    end
  endtask

  @monitor@

  // The guard by which the home waits.
  function integer waiting_guard(input logic [@pkg@::HOME_STATE_WIDTH-1:0] place);
    begin
      waiting_guard = 0;
      @waiting_guard@
    end
  endfunction

  // ---- what is reported of the steps of a clock, before its edge

  logic [UP_MESSAGE_WIDTH-1:0] taken_message;
  logic [UP_VALUE_WIDTH-1:0]   taken_value;
  logic reports;

  task event_of_home;
    if (!home_step_event) begin
      if (reports) $fwrite(log, "stutter");
    end else if (home_step[@pkg@::HOME_STEP_TAU]) begin
      if (reports) $fwrite(log, "tau home %0d", home_step_guard);
      tau_of_home(home_step_guard);
    end else if (home_step[@pkg@::HOME_STEP_TAKE]) begin
      if (reports) begin
        $fwrite(log, "up %0d %0d 0 ", home_step_remote, home_step_guard);
        write_up_message(dut.home.taken_message, dut.home.taken_value);
      end
      event_up(home_step_remote, home_step_guard, dut.home.taken_message, dut.home.taken_value);
    end else begin
      if (reports) begin
        $fwrite(log, "down %0d %0d 0 ", home_step_remote, home_step_guard);
        write_down_message(dut.home.put_message, dut.home.put_value);
      end
      event_down(home_step_remote, home_step_guard, 0, dut.home.put_message, dut.home.put_value);
    end
  endtask

  task event_of_remote(input integer j);
    if (!remote_step_event[j]) begin
      if (reports) $fwrite(log, "stutter");
    end else if (remote_step[j*STEPS + @pkg@::REMOTE_STEP_TAU]) begin
      if (reports) $fwrite(log, "tau %0d %0d", j, remote_step_guard[j*GUARD_WIDTH +: GUARD_WIDTH]);
      tau_of_remote(j, remote_step_guard[j*GUARD_WIDTH +: GUARD_WIDTH]);
    end else if (remote_step[j*STEPS + @pkg@::REMOTE_STEP_ANSWER]) begin
      if (reports) begin
        $fwrite(log, "down %0d %0d %0d ", j, waiting_guard(home_state), remote_step_guard[j*GUARD_WIDTH +: GUARD_WIDTH]);
        write_down_message(slot_message[j], slot_value[j]);
      end
      event_down(j, waiting_guard(home_state), remote_step_guard[j*GUARD_WIDTH +: GUARD_WIDTH], slot_message[j], slot_value[j]);
    end else begin
      if (reports) begin
        $fwrite(log, "up %0d 0 0 ", j);
        write_up_message(put_up[j][UP_VALUE_WIDTH +: UP_MESSAGE_WIDTH], put_up[j][UP_VALUE_WIDTH-1:0]);
      end
      event_up(j, 0, put_up[j][UP_VALUE_WIDTH +: UP_MESSAGE_WIDTH], put_up[j][UP_VALUE_WIDTH-1:0]);
    end
  endtask

  // ---- lockstep

  integer steps_file, got, words, count, number_1, of_remote, displaced, read, place, lines_left;
  reg [8*300-1:0] line;
  reg [8*24-1:0] w0, w1, w2, w3, w4;
  string path;
  logic is_home, is_step, moved;

  // Cuts a line into its words, without its comment.
  task cut_line;
    begin
      for (place = 299; place > 0; place = place - 1)
        if (line[8*place +: 8] == "/" && line[8*(place - 1) +: 8] == "/") begin
          line = line >> 8*(place + 1);
          place = 0;
        end
      words = $sscanf(line, "%s %s %s %s %s", w0, w1, w2, w3, w4);
      if (words < 0) words = 0;
    end
  endtask

  // The number that a word spells; one that is out of every range, if it spells none.
  function integer number_of(input reg [8*24-1:0] word);
    begin
      read = 100000;
      got = $sscanf(word, "%d", read);
      number_of = read;
    end
  endfunction

  // Asks for the step of the line; `is_step` says whether its words are a step's.
  task ask_step;
    begin
      choice_step = '0;
      remote_step_allow = '0;
      local_valid = '0;
      is_step = 1'b1;
      is_home = w0 == "home" || w0 == "up";
      of_remote = -1;
      if (w0 == "home" && w1 == "tau" && words == 3) begin
        $fwrite(log, "%0d home tau %0d: ", count, number_of(w2));
        number_1 = number_of(w2);
        if (number_1 < HOME_GUARDS) choose(@pkg@::HOME_STEP_TAU, number_1, 0);
      end else if (w0 == "home" && w1 == "take" && words == 3) begin
        of_remote = number_of(w2);
        $fwrite(log, "%0d home take %0d: ", count, of_remote);
        choose(@pkg@::HOME_STEP_TAKE, 0, of_remote);
      end else if (w0 == "home" && w1 == "send" && words == 4) begin
        number_1 = number_of(w2);
        of_remote = number_of(w3);
        $fwrite(log, "%0d home send %0d %0d: ", count, number_1, of_remote);
        if (number_1 < HOME_GUARDS) choose(@pkg@::HOME_STEP_SEND, number_1, of_remote);
      end else if (w0 == "home" && w1 == "drop" && words == 3) begin
        of_remote = number_of(w2);
        $fwrite(log, "%0d home drop %0d: ", count, of_remote);
        choose(@pkg@::HOME_STEP_DROP, 0, of_remote);
      end else if (w0 == "remote" && w2 == "tau" && words == 4) begin
        of_remote = number_of(w1);
        number_1 = number_of(w3);
        $fwrite(log, "%0d remote %0d tau %0d: ", count, of_remote, number_1);
        if (of_remote < REMOTES && number_1 < REMOTE_GUARDS) begin
          local_valid[of_remote] = 1'b1;
          local_guard[of_remote*GUARD_WIDTH +: GUARD_WIDTH] = number_1;
          allow(@pkg@::REMOTE_STEP_TAU);
        end
      end else if (w0 == "remote" && w2 == "send" && words == 3) begin
        of_remote = number_of(w1);
        $fwrite(log, "%0d remote %0d send: ", count, of_remote);
        allow(@pkg@::REMOTE_STEP_SEND);
      end else if (w0 == "remote" && w2 == "answer" && words == 3) begin
        of_remote = number_of(w1);
        $fwrite(log, "%0d remote %0d answer: ", count, of_remote);
        allow(@pkg@::REMOTE_STEP_ANSWER);
      end else if (w0 == "remote" && w2 == "reply" && words == 3) begin
        of_remote = number_of(w1);
        $fwrite(log, "%0d remote %0d reply: ", count, of_remote);
        allow(@pkg@::REMOTE_STEP_REPLY);
      end else if (w0 == "up" && words == 2) begin
        of_remote = number_of(w1);
        $fwrite(log, "%0d up %0d: ", count, of_remote);
        choose(@pkg@::HOME_STEP_UP, 0, of_remote);
      end else if (w0 == "down" && words == 2) begin
        of_remote = number_of(w1);
        $fwrite(log, "%0d down %0d: ", count, of_remote);
        allow(@pkg@::REMOTE_STEP_DOWN);
      end else begin
        is_step = 1'b0;
      end
    end
  endtask

  // The home is to take this step.
  task choose(input integer kind, input integer guard, input integer of);
    if (of < REMOTES) begin
      choice_step[kind] = 1'b1;
      choice_guard = guard;
      choice_remote = of;
    end
  endtask

  // The remote that is named is to take this step.
  task allow(input integer kind);
    if (of_remote < REMOTES) remote_step_allow[of_remote*STEPS + kind] = 1'b1;
  endtask

  task lockstep;
    begin
      steps_file = $fopen(path, "r");
      if (steps_file == 0) $fatal(1, "no such file of steps");
      home_local_allow = '1;
      home_step_allow = '1;
      reports = 1'b1;
      count = 0;
      check_claims;
      line = '0;
      lines_left = claim_broken >= 0 ? 0 : $fgets(line, steps_file);
      while (lines_left != 0) begin
        cut_line;
        if (words > 0) begin
          count = count + 1;
          ask_step;
          if (!is_step) begin
            $display("ERROR: step %0d isn't one: %0s", count, line);
            $finish;
          end
          #1;
          moved = is_home ? |home_step : |remote_step;
          displaced = -1;
          if (dut.home.displace) displaced = dut.home.last_from;
          if (!moved) $fwrite(log, "refused");
          else if (is_home) event_of_home;
          else event_of_remote(of_remote);
          $fwrite(log, "\\n");
          @(posedge clk);
          #1;
          choice_step = '0;
          remote_step_allow = '0;
          local_valid = '0;
          if (moved) begin
            if (is_home) write_home;
            if (of_remote >= 0) write_remote(of_remote);
            if (displaced >= 0) write_remote(displaced);
          end
          if (moved) check_claims;
        end
        line = '0;
        lines_left = claim_broken >= 0 ? 0 : $fgets(line, steps_file);
      end
      if (claim_broken >= 0) $fwrite(log, "claim %0d broken\\n", claim_broken);
      write_states;
    end
  endtask

  // ---- free

  integer seed, clocks, busy, clock, j, kind;
  integer states_log, steps_log;

  // Chooses what is allowed and asked for in this clock.
  task choose_clock;
    begin
      for (kind = 0; kind < 5; kind = kind + 1) home_step_allow[kind] = $unsigned($random(seed)) % 8 < busy;
      for (k = 0; k < HOME_GUARDS; k = k + 1) home_local_allow[k] = $unsigned($random(seed)) % 8 < busy;
      for (k = 0; k < REMOTES*STEPS; k = k + 1) remote_step_allow[k] = $unsigned($random(seed)) % 8 < busy;
      for (k = 0; k < REMOTES; k = k + 1) begin
        local_valid[k] = $unsigned($random(seed)) % 8 < busy;
        local_guard[k*GUARD_WIDTH +: GUARD_WIDTH] = $unsigned($random(seed)) % REMOTE_GUARDS;
      end
    end
  endtask

  task log_home_step;
    begin
      if (home_step[@pkg@::HOME_STEP_TAU]) $fwrite(log, "home tau %0d\\n", home_step_guard);
      if (home_step[@pkg@::HOME_STEP_TAKE]) $fwrite(log, "home take %0d\\n", home_step_remote);
      if (home_step[@pkg@::HOME_STEP_SEND]) $fwrite(log, "home send %0d %0d\\n", home_step_guard, home_step_remote);
      if (home_step[@pkg@::HOME_STEP_DROP]) $fwrite(log, "home drop %0d\\n", home_step_remote);
      if (home_step[@pkg@::HOME_STEP_UP]) $fwrite(log, "up %0d\\n", home_step_remote);
      if (home_step != 0) event_of_home;
    end
  endtask

  task log_remote_step(input integer j);
    begin
      if (remote_step[j*STEPS + @pkg@::REMOTE_STEP_TAU])
        $fwrite(log, "remote %0d tau %0d\\n", j, remote_step_guard[j*GUARD_WIDTH +: GUARD_WIDTH]);
      if (remote_step[j*STEPS + @pkg@::REMOTE_STEP_SEND]) $fwrite(log, "remote %0d send\\n", j);
      if (remote_step[j*STEPS + @pkg@::REMOTE_STEP_ANSWER]) $fwrite(log, "remote %0d answer\\n", j);
      if (remote_step[j*STEPS + @pkg@::REMOTE_STEP_REPLY]) $fwrite(log, "remote %0d reply\\n", j);
      if (remote_step[j*STEPS + @pkg@::REMOTE_STEP_DOWN]) $fwrite(log, "down %0d\\n", j);
      if (remote_step[j*STEPS +: STEPS] != 0) event_of_remote(j);
    end
  endtask

  task free;
    begin
      if (!$value$plusargs("seed=%d", seed)) seed = 1;
      if (!$value$plusargs("busy=%d", busy)) busy = 6;
      steps_log = log;
      reports = 1'b0;
      for (clock = 0; clock < clocks; clock = clock + 1) begin
        choose_clock;
        #1;
        $fwrite(log, "// clock %0d\\n", clock);
        log_home_step;
        for (j = 0; j < REMOTES; j = j + 1) log_remote_step(j);
        check_claims;
        if (claim_broken >= 0) begin
          $display("ERROR: claim %0d is broken in clock %0d", claim_broken, clock);
          clock = clocks;
        end
        @(posedge clk);
        #1;
      end
      home_step_allow = '0;
      remote_step_allow = '0;
      if ($value$plusargs("end=%s", path)) begin
        states_log = $fopen(path, "w");
        log = states_log;
        write_states;
        $fclose(states_log);
        log = steps_log;
      end
    end
  endtask

  always #5 clk = !clk;

  initial begin
    if (!$value$plusargs("log=%s", path)) path = "log";
    log = $fopen(path, "w");
    if ($value$plusargs("wave=%s", path)) begin
      $dumpfile(path);
      $dumpvars(0, dut);
    end
    start_protocol;
    repeat (2) @(posedge clk);
    #1 rst = 1'b0;
    if ($value$plusargs("steps=%s", path)) lockstep;
    else if ($value$plusargs("clocks=%d", clocks)) free;
    else $display("ERROR: +steps=FILE or +clocks=C is needed");
    $fclose(log);
    $finish;
  end
endmodule
"""


def write_messages(design, way):
    """The statement that writes a message with its value."""
    arms = {}
    for message in design.going(way):
        lines = ['$fwrite(log, "%s");' % message.name]
        if message.carries:
            value = "value[%d:0]" % (design.width(message.carries) - 1)
            lines = ['$fwrite(log, "%s(");' % message.name, write_value(message.carries, value), '$fwrite(log, ")");']
        arms["%s_pkg::%s" % (design.name, message.constant)] = lines
    return case("message", arms, ['$fwrite(log, "message %0d", message);'])


def write_place(design, controller, of):
    """The statement that writes a place."""
    arms = {}
    for place in controller.places():
        state, kind, number = place
        text = {"": state, "*": state + "*", "!": state + "!"}[kind]
        lines = ['$fwrite(log, "%s");' % text]
        if kind == "*" and controller.word == "home":
            lines = ['$fwrite(log, "%s/%d>%%0d", dut.home.wait_on_q);' % (state, number)]
        arms["%s_pkg::%s" % (design.name, controller.constants[place])] = lines
    return case(of, arms, ['$fwrite(log, "place %%0d", %s);' % of])


def waiting_guard(design):
    """The guard by which the home waits, by its place."""
    arms = {"%s_pkg::%s" % (design.name, design.home.constants[place]): ["waiting_guard = %d;" % place[2]]
            for place in design.home.places() if place[1]}
    return case("place", arms)


def write_owed(design):
    """The statement that writes the message that is owed to remote i."""
    owed = design.owed()
    if len(owed) == 1:
        return ['$fwrite(log, "%s");' % owed[0].name]
    arms = {"%s_pkg::%s" % (design.name, message.constant): ['$fwrite(log, "%s");' % message.name] for message in owed}
    return case("dut.home.owed_message_q[i*DOWN_MESSAGE_WIDTH +: DOWN_MESSAGE_WIDTH]", arms) if owed else []


def testbench_lines(design):
    """The testbench."""
    peek = {name: "peek_%s" % name for name in design.remote.types}
    return filled(
        TESTBENCH, name=design.name, pkg=design.name + "_pkg", remote_guards=design.guard_count(design.remote),
        peek_declared=["logic [%d:0] %s [0:REMOTES-1];" % (design.width(kind) - 1, peek[name])
                       for name, kind in design.remote.types.items()],
        peeked=["assign %s[j] = dut.remote[j].controller.var_%s_q;" % (peek[name], name)
                for name in design.remote.types],
        up_messages=write_messages(design, "up"), down_messages=write_messages(design, "down"),
        home_place=write_place(design, design.home, "dut.home.state_q"),
        home_variables=write_variables(design.home.types, "dut.home.var_{}_q".format),
        owed=write_owed(design), remote_place=write_place(design, design.remote, "at_remote[j]"),
        remote_variables=write_variables(design.remote.types, "peek_{}[j]".format),
        monitor=monitor_lines(design), waiting_guard=waiting_guard(design))

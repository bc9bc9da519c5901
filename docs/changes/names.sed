# Turns the names of before into those of now, in older texts: sed -E -f docs/changes/names.sed FILE
# It goes by words, not by scope. Names that meant several things, or that are English words, are left as they were; they are:
#   Aimed: in region TargetBelow; in values HasTargets
#   Behind: in scan AfterNumber
#   Fine: in body WithinFile; in guarantees AllowedPart
#   Found: in writer ListedTest
#   Gated: in guarantees Opened; in region InRegion
#   Good: in guarantees GoodValue; in writer ArgumentTest
#   Kept: in guarantees ModelInvariant
#   Passed: in guarantees WalkedBetween
#   Reached: in pointers FollowedHead
#   Reaches: in pointers FollowsTo; in values HasTarget
#   Reply: in guarantees SampleAnswer
#   Stands: in guarantees TokenAt; in its file Taken TakenToken
#   Stood: in guarantees TakenHead
#   Taken: in pass TokenTaken
#   Told: in guarantees ReadValue
#   Took: in guarantees TookItem
#   When: in writer IfElse
#   again: in guarantees callOfValue
#   aimed: in pass hasTarget; in region target-below; in guarantees targeted, targets or target
#   aims: in values has-targets; in guarantees has-target
#   ask: in guarantees sampleAnswer
#   asked, head-asked, item-asked: in guarantees opened-as, head-opened, item-opened
#   bad: in judge badState; in writer badState
#   behind: in guarantees tokenEnd; in writer room-after; in depths, scan, scan_item and token after
#   bits: in float load
#   blank: in guarantees emptyModel
#   bytesOf: in guarantees modelBytes; in scan bodyOn
#   early: in writer refusalOf
#   gated: in guarantees opened; in region in-region
#   good: in judge not-bad; in writer not-bad
#   head-stands, item-stands, holds-stands: in guarantees head-token-at, item-token-at, holds-at
#   inside-region: in guarantees in-region-is; in region in-region-same
#   judge: in pass tokenFault; in writer tokenRefusal
#   judged: in guarantees answered
#   kept: in checker keptWords; in guarantees unlessRefused
#   look: in depth depthTurn
#   looked: in depth depthTurned; in guarantees and pointers peeked
#   met: in pointers followed
#   need: in writer bytesNeeded
#   next: in pass nextToken
#   notes: in guarantees modelRun
#   owed: in guarantees pendingAt
#   pass: in values depthsFrom
#   passed: in pass walkAfter
#   plain: in guarantees modelValue
#   put: in writer putToken
#   reached: in depth targetDepth
#   reaches: in guarantees target
#   refusal: in judge refusalOf
#   refused: in depths depthsRefused; in reply errorC
#   row: in tell rowC
#   rows: in guarantees callRows; in read valueRows; in tell rowsC
#   said: in guarantees valueOfCall
#   stands: in guarantees taken
#   tells: in guarantees tokenRows
#   told: in error faultOf; in leb128 answerOf; in scan answerOf; in writer answerOf; in checker and guarantees, as a variable, reported
#   trail: in pointers followFrom; in utf8 continuation
#   turn: in pass walkTurn; in pointers followTurn
#   turned: in pass walkTurned; in pointers followTurned
#   value: in float fromLittle
#   walk: in items skipItems
# (here with the crates' names of before). The theorem of a function, F-spec, follows the function's name. In a few places it changes what kept its name:
# inside, Comes and peek.

# files
s/(Rattle·leb128(·specs)?\.specs\.)Told\b/\1Answers/g
s/\b(leb128\/specs\/)Told\.antt/\1Answers.antt/g
s/(Rattle·leb128(·specs)?\.specs\.)Stages\b/\1Internal/g
s/\b(leb128\/specs\/)Stages\.antt/\1Internal.antt/g
s/(Rattle·scan(·specs)?\.specs\.)Told\b/\1Answers/g
s/\b(scan\/specs\/)Told\.antt/\1Answers.antt/g
s/(Rattle·scan(·specs)?\.specs\.)Stages\b/\1Internal/g
s/\b(scan\/specs\/)Stages\.antt/\1Internal.antt/g
s/(Rattle·utf8(·specs)?\.specs\.)Told\b/\1Internal/g
s/\b(utf8\/specs\/)Told\.antt/\1Internal.antt/g
s/(Rattle·kind(·specs)?\.specs\.)Packed\b/\1Internal/g
s/\b(kind\/specs\/)Packed\.antt/\1Internal.antt/g
s/(Rattle·leb128_word(·specs)?\.specs\.)Word\b/\1Internal/g
s/\b(leb128_word\/specs\/)Word\.antt/\1Internal.antt/g
s/(Rattle·header(·specs)?\.specs\.)Header\b/\1Internal/g
s/\b(header\/specs\/)Header\.antt/\1Internal.antt/g
s/(Rattle·region(·specs)?\.specs\.)Told\b/\1Answers/g
s/\b(region\/specs\/)Told\.antt/\1Answers.antt/g
s/(Rattle·region(·specs)?\.specs\.)Looked\b/\1Internal/g
s/\b(region\/specs\/)Looked\.antt/\1Internal.antt/g
s/(Rattle·read(·specs)?\.specs\.)Told\b/\1Answers/g
s/\b(read\/specs\/)Told\.antt/\1Answers.antt/g
s/(Rattle·read(·specs)?\.specs\.)Read\b/\1Value/g
s/\b(read\/specs\/)Read\.antt/\1Value.antt/g
s/(Rattle·pointers(·specs)?\.specs\.)Told\b/\1Answers/g
s/\b(pointers\/specs\/)Told\.antt/\1Answers.antt/g
s/(Rattle·pointers(·specs)?\.specs\.)Pointers\b/\1Follow/g
s/\b(pointers\/specs\/)Pointers\.antt/\1Follow.antt/g
s/(Rattle·body(·specs)?\.specs\.)Told\b/\1Answers/g
s/\b(body\/specs\/)Told\.antt/\1Answers.antt/g
s/(Rattle·lookup(·specs)?\.specs\.)Stages\b/\1Internal/g
s/\b(lookup\/specs\/)Stages\.antt/\1Internal.antt/g
s/(Rattle·pass(·specs)?\.specs\.)Stages\b/\1Internal/g
s/\b(pass\/specs\/)Stages\.antt/\1Internal.antt/g
s/(Rattle·starts(·specs)?\.specs\.)Told\b/\1Answers/g
s/\b(starts\/specs\/)Told\.antt/\1Answers.antt/g
s/(Rattle·checker(·specs)?\.specs\.)Told\b/\1Answers/g
s/\b(checker\/specs\/)Told\.antt/\1Answers.antt/g
s/(Rattle·checker(·specs)?\.specs\.)Stages\b/\1Internal/g
s/\b(checker\/specs\/)Stages\.antt/\1Internal.antt/g
s/(Rattle·depth(·specs)?\.specs\.)Stages\b/\1Internal/g
s/\b(depth\/specs\/)Stages\.antt/\1Internal.antt/g
s/(Rattle·writer(·specs)?\.specs\.)Told\b/\1Answers/g
s/\b(writer\/specs\/)Told\.antt/\1Answers.antt/g
s/(Rattle·writer(·specs)?\.specs\.)Stages\b/\1Internal/g
s/\b(writer\/specs\/)Stages\.antt/\1Internal.antt/g
s/(Rattle·tell(·specs)?\.specs\.)Tell\b/\1Answers/g
s/\b(tell\/specs\/)Tell\.antt/\1Answers.antt/g
s/(Rattle·state(·specs)?\.specs\.)State\b/\1Calls/g
s/\b(state\/specs\/)State\.antt/\1Calls.antt/g
s/(Rattle·float(·specs)?\.specs\.)Bits\b/\1LittleEndian/g
s/\b(float\/specs\/)Bits\.antt/\1LittleEndian.antt/g
s/(Rattle·guarantees(·specs)?\.specs\.)Tells\b/\1TokenValues/g
s/\b(guarantees\/specs\/)Tells\.antt/\1TokenValues.antt/g
s/(Rattle·guarantees(·specs)?\.specs\.)Said\b/\1CallValues/g
s/\b(guarantees\/specs\/)Said\.antt/\1CallValues.antt/g
s/(Rattle·guarantees(·proofs)?\.proofs\.)Tells\b/\1ReadsFile/g
s/\b(guarantees\/proofs\/)Tells\.antt/\1ReadsFile.antt/g
s/(Rattle·guarantees(·proofs)?\.proofs\.)Said\b/\1CallValues/g
s/\b(guarantees\/proofs\/)Said\.antt/\1CallValues.antt/g
s/(Rattle·guarantees(·proofs)?\.proofs\.)Kept\b/\1Invariant/g
s/\b(guarantees\/proofs\/)Kept\.antt/\1Invariant.antt/g
s/(Rattle·guarantees(·proofs)?\.proofs\.)Fine\b/\1Allowed/g
s/\b(guarantees\/proofs\/)Fine\.antt/\1Allowed.antt/g
s/(Rattle·guarantees(·proofs)?\.proofs\.)Taken\b/\1WalkTokens/g
s/\b(guarantees\/proofs\/)Taken\.antt/\1WalkTokens.antt/g
s/(Rattle·guarantees(·proofs)?\.proofs\.)Walked\b/\1WalkValues/g
s/\b(guarantees\/proofs\/)Walked\.antt/\1WalkValues.antt/g
s/(Rattle·guarantees(·proofs)?\.proofs\.)Again\b/\1RewritesRead/g
s/\b(guarantees\/proofs\/)Again\.antt/\1RewritesRead.antt/g
s/(Rattle·starts(·proofs)?\.proofs\.)Along\b/\1Invariant/g
s/\b(starts\/proofs\/)Along\.antt/\1Invariant.antt/g
s/(Rattle·writer(·proofs)?\.proofs\.)Asked\b/\1Fits/g
s/\b(writer\/proofs\/)Asked\.antt/\1Fits.antt/g
s/(Rattle·writer(·proofs)?\.proofs\.)Stages\b/\1Settled/g
s/\b(writer\/proofs\/)Stages\.antt/\1Settled.antt/g
# functions, with their crate
s/\bfloat::bits4\b/float::load4/g
s/\bfloat::bits8\b/float::load8/g
s/\bemit::excess\b/emit::above_15/g
s/\bkind::most\b/kind::bound/g
s/\bregion::enter\b/region::region_len/g
s/\bregion::look\b/region::peek_in/g
s/\bregion::aimed\b/region::check_target/g
s/\bread::value_of\b/read::value_on/g
s/\bitems::pass\b/items::skip_items/g
s/\bpointers::trail\b/pointers::follow_from/g
s/\bpointers::reach\b/pointers::follow_head/g
s/\bbody::body_at\b/body::body_place_on/g
s/\bpass::is_aimed\b/pass::has_target/g
s/\bpass::pass_items\b/pass::check_items/g
s/\bpass::pass_value\b/pass::check_value/g
s/\bchecker::kept\b/checker::kept_words/g
s/\bdepth::larger\b/depth::max/g
s/\bdepth::reached\b/depth::target_depth/g
s/\bdepths::measure\b/depths::depths_to/g
s/\bdepths::measure_by\b/depths::depths_to_by/g
s/\bsearch::has\b/search::is_among/g
s/\blisting::has\b/listing::is_among_each/g
s/\blisting::lists\b/listing::is_among/g
s/\bjudge::lacks\b/judge::exceeds/g
s/\bjudge::may_shut\b/judge::may_close/g
s/\bjudge::is_bad\b/judge::is_bad_state/g
s/\bwriter::ask\b/writer::fit/g
s/\bwriter::put\b/writer::put_token/g
s/\bwriter::shut\b/writer::write_delta/g
s/\breply::tell_error\b/reply::answer_error/g
s/\btell::tell_offset\b/tell::answer_offset/g
s/\btell::tell_entry\b/tell::answer_entry/g
s/\btell::tell_follow\b/tell::answer_follow/g
s/\btell::tell_body\b/tell::answer_body/g
s/\bstate::load\b/state::writer_of/g
# types of the code
s/\bTrailResult\b/FollowHeadResult/g
s/\bPassResult\b/ValueResult/g
s/\bAsk\b/Fit/g
# definitions and laws
s/(^|[^A-Za-z0-9_′.:-])Along([^A-Za-z0-9_′-]|$)/\1TableInvariant\2/g
s/(^|[^A-Za-z0-9_′.:-])Asked([^A-Za-z0-9_′-]|$)/\1FitOf\2/g
s/(^|[^A-Za-z0-9_′.:-])Back([^A-Za-z0-9_′-]|$)/\1TargetsEarlier\2/g
s/(^|[^A-Za-z0-9_′.:-])Comes([^A-Za-z0-9_′-]|$)/\1FollowsTo\2/g
s/(^|[^A-Za-z0-9_′.:-])Early([^A-Za-z0-9_′-]|$)/\1Granted\2/g
s/(^|[^A-Za-z0-9_′.:-])Going([^A-Za-z0-9_′-]|$)/\1WalkInvariant\2/g
s/(^|[^A-Za-z0-9_′.:-])Line([^A-Za-z0-9_′-]|$)/\1Request\2/g
s/(^|[^A-Za-z0-9_′.:-])Looked([^A-Za-z0-9_′-]|$)/\1Peeked\2/g
s/(^|[^A-Za-z0-9_′.:-])Met([^A-Za-z0-9_′-]|$)/\1Followed\2/g
s/(^|[^A-Za-z0-9_′.:-])Noted([^A-Za-z0-9_′-]|$)/\1ModelRan\2/g
s/(^|[^A-Za-z0-9_′.:-])PassesItems([^A-Za-z0-9_′-]|$)/\1ChecksItems\2/g
s/(^|[^A-Za-z0-9_′.:-])PassesValue([^A-Za-z0-9_′-]|$)/\1ChecksValue\2/g
s/(^|[^A-Za-z0-9_′.:-])Plain([^A-Za-z0-9_′-]|$)/\1ModelValue\2/g
s/(^|[^A-Za-z0-9_′.:-])Shut([^A-Za-z0-9_′-]|$)/\1WroteDelta\2/g
s/(^|[^A-Za-z0-9_′.:-])Sight([^A-Za-z0-9_′-]|$)/\1DepthState\2/g
s/(^|[^A-Za-z0-9_′.:-])Spot([^A-Za-z0-9_′-]|$)/\1Position\2/g
s/(^|[^A-Za-z0-9_′.:-])TellsFalse([^A-Za-z0-9_′-]|$)/\1ReadFalse\2/g
s/(^|[^A-Za-z0-9_′.:-])TellsNull([^A-Za-z0-9_′-]|$)/\1ReadNull\2/g
s/(^|[^A-Za-z0-9_′.:-])TellsTrue([^A-Za-z0-9_′-]|$)/\1ReadTrue\2/g
s/(^|[^A-Za-z0-9_′.:-])Walked([^A-Za-z0-9_′-]|$)/\1WalkedValues\2/g
s/(^|[^A-Za-z0-9_′.:-])accepted-good([^A-Za-z0-9_′-]|$)/\1accepted-not-bad\2/g
s/(^|[^A-Za-z0-9_′.:-])again-float([^A-Za-z0-9_′-]|$)/\1callOfValue-float\2/g
s/(^|[^A-Za-z0-9_′.:-])again-scalar([^A-Za-z0-9_′-]|$)/\1callOfValue-scalar\2/g
s/(^|[^A-Za-z0-9_′.:-])again-told([^A-Za-z0-9_′-]|$)/\1callOfValue-read\2/g
s/(^|[^A-Za-z0-9_′.:-])aim-is([^A-Za-z0-9_′-]|$)/\1target-is\2/g
s/(^|[^A-Za-z0-9_′.:-])aim-same([^A-Za-z0-9_′-]|$)/\1target-same\2/g
s/(^|[^A-Za-z0-9_′.:-])aimed-snoc([^A-Za-z0-9_′-]|$)/\1has-targets-snoc\2/g
s/(^|[^A-Za-z0-9_′.:-])aims-at([^A-Za-z0-9_′-]|$)/\1target-at\2/g
s/(^|[^A-Za-z0-9_′.:-])allowed-line([^A-Za-z0-9_′-]|$)/\1allowed-request\2/g
s/(^|[^A-Za-z0-9_′.:-])along-counts([^A-Za-z0-9_′-]|$)/\1table-counts\2/g
s/(^|[^A-Za-z0-9_′.:-])along-end([^A-Za-z0-9_′-]|$)/\1table-end\2/g
s/(^|[^A-Za-z0-9_′.:-])along-ends([^A-Za-z0-9_′-]|$)/\1table-ends\2/g
s/(^|[^A-Za-z0-9_′.:-])along-error([^A-Za-z0-9_′-]|$)/\1table-error\2/g
s/(^|[^A-Za-z0-9_′.:-])along-finished([^A-Za-z0-9_′-]|$)/\1table-finished\2/g
s/(^|[^A-Za-z0-9_′.:-])along-full([^A-Za-z0-9_′-]|$)/\1table-full\2/g
s/(^|[^A-Za-z0-9_′.:-])along-less([^A-Za-z0-9_′-]|$)/\1table-less\2/g
s/(^|[^A-Za-z0-9_′.:-])along-start([^A-Za-z0-9_′-]|$)/\1table-start\2/g
s/(^|[^A-Za-z0-9_′.:-])asked-accepted([^A-Za-z0-9_′-]|$)/\1fit-accepted\2/g
s/(^|[^A-Za-z0-9_′.:-])asked-refused([^A-Za-z0-9_′-]|$)/\1fit-refused\2/g
s/(^|[^A-Za-z0-9_′.:-])back-append([^A-Za-z0-9_′-]|$)/\1targets-earlier-append\2/g
s/(^|[^A-Za-z0-9_′.:-])bits-listed([^A-Za-z0-9_′-]|$)/\1load-listed\2/g
s/(^|[^A-Za-z0-9_′.:-])bits-little([^A-Za-z0-9_′-]|$)/\1load-little\2/g
s/(^|[^A-Za-z0-9_′.:-])bits-short([^A-Za-z0-9_′-]|$)/\1load-short\2/g
s/(^|[^A-Za-z0-9_′.:-])body-met([^A-Za-z0-9_′-]|$)/\1body-followed\2/g
s/(^|[^A-Za-z0-9_′.:-])bodyAt([^A-Za-z0-9_′-]|$)/\1bodyPlaceOn\2/g
s/(^|[^A-Za-z0-9_′.:-])bodyAt-fine([^A-Za-z0-9_′-]|$)/\1body-place-within\2/g
s/(^|[^A-Za-z0-9_′.:-])bodyIn([^A-Za-z0-9_′-]|$)/\1bodyPlaceIn\2/g
s/(^|[^A-Za-z0-9_′.:-])bodyOf([^A-Za-z0-9_′-]|$)/\1bodyPlaceOf\2/g
s/(^|[^A-Za-z0-9_′.:-])check-walked([^A-Za-z0-9_′-]|$)/\1check-walk\2/g
s/(^|[^A-Za-z0-9_′.:-])closed-line([^A-Za-z0-9_′-]|$)/\1closed-request\2/g
s/(^|[^A-Za-z0-9_′.:-])depths-pass([^A-Za-z0-9_′-]|$)/\1depths-from\2/g
s/(^|[^A-Za-z0-9_′.:-])depths-tell([^A-Za-z0-9_′-]|$)/\1depths-accept\2/g
s/(^|[^A-Za-z0-9_′.:-])depths-told([^A-Za-z0-9_′-]|$)/\1depths-answer\2/g
s/(^|[^A-Za-z0-9_′.:-])ends-behind([^A-Za-z0-9_′-]|$)/\1ends-after\2/g
s/(^|[^A-Za-z0-9_′.:-])entered-told([^A-Za-z0-9_′-]|$)/\1entered-answer\2/g
s/(^|[^A-Za-z0-9_′.:-])f32-bits([^A-Za-z0-9_′-]|$)/\1f32-load\2/g
s/(^|[^A-Za-z0-9_′.:-])f64-bits([^A-Za-z0-9_′-]|$)/\1f64-load\2/g
s/(^|[^A-Za-z0-9_′.:-])fault-told([^A-Za-z0-9_′-]|$)/\1fault-answer\2/g
s/(^|[^A-Za-z0-9_′.:-])fine-given([^A-Za-z0-9_′-]|$)/\1allowed-given\2/g
s/(^|[^A-Za-z0-9_′.:-])fresh-good([^A-Za-z0-9_′-]|$)/\1fresh-not-bad\2/g
s/(^|[^A-Za-z0-9_′.:-])gate([^A-Za-z0-9_′-]|$)/\1regionLen\2/g
s/(^|[^A-Za-z0-9_′.:-])gate-before([^A-Za-z0-9_′-]|$)/\1region-before\2/g
s/(^|[^A-Za-z0-9_′.:-])gate-length([^A-Za-z0-9_′-]|$)/\1region-length\2/g
s/(^|[^A-Za-z0-9_′.:-])gate-region([^A-Za-z0-9_′-]|$)/\1region-is\2/g
s/(^|[^A-Za-z0-9_′.:-])going-begun([^A-Za-z0-9_′-]|$)/\1invariant-begun\2/g
s/(^|[^A-Za-z0-9_′.:-])going-finished([^A-Za-z0-9_′-]|$)/\1invariant-finished\2/g
s/(^|[^A-Za-z0-9_′.:-])good-aim([^A-Za-z0-9_′-]|$)/\1argument-target\2/g
s/(^|[^A-Za-z0-9_′.:-])good-grown([^A-Za-z0-9_′-]|$)/\1grown-good\2/g
s/(^|[^A-Za-z0-9_′.:-])good-text([^A-Za-z0-9_′-]|$)/\1argument-text\2/g
s/(^|[^A-Za-z0-9_′.:-])good-true([^A-Za-z0-9_′-]|$)/\1argument-true\2/g
s/(^|[^A-Za-z0-9_′.:-])inside([^A-Za-z0-9_′-]|$)/\1inRegion\2/g
s/(^|[^A-Za-z0-9_′.:-])inside-error([^A-Za-z0-9_′-]|$)/\1in-region-error\2/g
s/(^|[^A-Za-z0-9_′.:-])inside-failed([^A-Za-z0-9_′-]|$)/\1in-region-failed\2/g
s/(^|[^A-Za-z0-9_′.:-])inside-ok([^A-Za-z0-9_′-]|$)/\1in-region-ok\2/g
s/(^|[^A-Za-z0-9_′.:-])inside-then([^A-Za-z0-9_′-]|$)/\1in-region-then\2/g
s/(^|[^A-Za-z0-9_′.:-])judge-inv([^A-Za-z0-9_′-]|$)/\1token-inv\2/g
s/(^|[^A-Za-z0-9_′.:-])judge-ok([^A-Za-z0-9_′-]|$)/\1token-ok\2/g
s/(^|[^A-Za-z0-9_′.:-])judgeDelta([^A-Za-z0-9_′-]|$)/\1deltaRefusal\2/g
s/(^|[^A-Za-z0-9_′.:-])judgeOf([^A-Za-z0-9_′-]|$)/\1modelAnswer\2/g
s/(^|[^A-Za-z0-9_′.:-])kept-adds([^A-Za-z0-9_′-]|$)/\1invariant-adds\2/g
s/(^|[^A-Za-z0-9_′.:-])kept-any([^A-Za-z0-9_′-]|$)/\1invariant-any\2/g
s/(^|[^A-Za-z0-9_′.:-])kept-ends([^A-Za-z0-9_′-]|$)/\1invariant-ends\2/g
s/(^|[^A-Za-z0-9_′.:-])kept-from([^A-Za-z0-9_′-]|$)/\1invariant-from\2/g
s/(^|[^A-Za-z0-9_′.:-])kept-given([^A-Za-z0-9_′-]|$)/\1invariant-given\2/g
s/(^|[^A-Za-z0-9_′.:-])kept-kept([^A-Za-z0-9_′-]|$)/\1invariant-kept\2/g
s/(^|[^A-Za-z0-9_′.:-])kept-line([^A-Za-z0-9_′-]|$)/\1invariant-request\2/g
s/(^|[^A-Za-z0-9_′.:-])kept-notes([^A-Za-z0-9_′-]|$)/\1invariant-run\2/g
s/(^|[^A-Za-z0-9_′.:-])kept-settle([^A-Za-z0-9_′-]|$)/\1invariant-settle\2/g
s/(^|[^A-Za-z0-9_′.:-])kept-values([^A-Za-z0-9_′-]|$)/\1invariant-values\2/g
s/(^|[^A-Za-z0-9_′.:-])keyOf([^A-Za-z0-9_′-]|$)/\1matchKey\2/g
s/(^|[^A-Za-z0-9_′.:-])keyed([^A-Za-z0-9_′-]|$)/\1isKey\2/g
s/(^|[^A-Za-z0-9_′.:-])known-judge([^A-Za-z0-9_′-]|$)/\1known-refusal\2/g
s/(^|[^A-Za-z0-9_′.:-])length-pass([^A-Za-z0-9_′-]|$)/\1length-depthsFrom\2/g
s/(^|[^A-Za-z0-9_′.:-])line-answer([^A-Za-z0-9_′-]|$)/\1request-answer\2/g
s/(^|[^A-Za-z0-9_′.:-])line-call([^A-Za-z0-9_′-]|$)/\1request-call\2/g
s/(^|[^A-Za-z0-9_′.:-])line-follows([^A-Za-z0-9_′-]|$)/\1request-follows\2/g
s/(^|[^A-Za-z0-9_′.:-])line-rows([^A-Za-z0-9_′-]|$)/\1request-rows\2/g
s/(^|[^A-Za-z0-9_′.:-])lineOf([^A-Za-z0-9_′-]|$)/\1requestOf\2/g
s/(^|[^A-Za-z0-9_′.:-])little-bits([^A-Za-z0-9_′-]|$)/\1little-load\2/g
s/(^|[^A-Za-z0-9_′.:-])little-value([^A-Za-z0-9_′-]|$)/\1little-from\2/g
s/(^|[^A-Za-z0-9_′.:-])lone-trail([^A-Za-z0-9_′-]|$)/\1lone-continuation\2/g
s/(^|[^A-Za-z0-9_′.:-])look-falls([^A-Za-z0-9_′-]|$)/\1turn-falls\2/g
s/(^|[^A-Za-z0-9_′.:-])look-small([^A-Za-z0-9_′-]|$)/\1turn-small\2/g
s/(^|[^A-Za-z0-9_′.:-])looked-lt([^A-Za-z0-9_′-]|$)/\1peeked-lt\2/g
s/(^|[^A-Za-z0-9_′.:-])move-line([^A-Za-z0-9_′-]|$)/\1move-request\2/g
s/(^|[^A-Za-z0-9_′.:-])next-stands([^A-Za-z0-9_′-]|$)/\1next-taken\2/g
s/(^|[^A-Za-z0-9_′.:-])next-trail([^A-Za-z0-9_′-]|$)/\1next-continuation\2/g
s/(^|[^A-Za-z0-9_′.:-])no-trail([^A-Za-z0-9_′-]|$)/\1no-continuation\2/g
s/(^|[^A-Za-z0-9_′.:-])noted([^A-Za-z0-9_′-]|$)/\1modelRan\2/g
s/(^|[^A-Za-z0-9_′.:-])notes-append([^A-Za-z0-9_′-]|$)/\1modelRun-append\2/g
s/(^|[^A-Za-z0-9_′.:-])owed-settled([^A-Za-z0-9_′-]|$)/\1pending-settled\2/g
s/(^|[^A-Za-z0-9_′.:-])owes([^A-Za-z0-9_′-]|$)/\1pendingIn\2/g
s/(^|[^A-Za-z0-9_′.:-])pass-at([^A-Za-z0-9_′-]|$)/\1depthsFrom-at\2/g
s/(^|[^A-Za-z0-9_′.:-])pass-keeps([^A-Za-z0-9_′-]|$)/\1depthsFrom-keeps\2/g
s/(^|[^A-Za-z0-9_′.:-])passed-item([^A-Za-z0-9_′-]|$)/\1after-item\2/g
s/(^|[^A-Za-z0-9_′.:-])passed-less([^A-Za-z0-9_′-]|$)/\1after-less\2/g
s/(^|[^A-Za-z0-9_′.:-])passed-on([^A-Za-z0-9_′-]|$)/\1after-invariant\2/g
s/(^|[^A-Za-z0-9_′.:-])passed-settled([^A-Za-z0-9_′-]|$)/\1after-settled\2/g
s/(^|[^A-Za-z0-9_′.:-])passed-walked([^A-Za-z0-9_′-]|$)/\1after-walked\2/g
s/(^|[^A-Za-z0-9_′.:-])peek([^A-Za-z0-9_′-]|$)/\1peekIn\2/g
s/(^|[^A-Za-z0-9_′.:-])peek-aimed([^A-Za-z0-9_′-]|$)/\1peek-target\2/g
s/(^|[^A-Za-z0-9_′.:-])peek-looked([^A-Za-z0-9_′-]|$)/\1peek-peeked\2/g
s/(^|[^A-Za-z0-9_′.:-])peekOf-looked([^A-Za-z0-9_′-]|$)/\1peekOf-peeked\2/g
s/(^|[^A-Za-z0-9_′.:-])plainOf([^A-Za-z0-9_′-]|$)/\1modelValueOf\2/g
s/(^|[^A-Za-z0-9_′.:-])plainsOf([^A-Za-z0-9_′-]|$)/\1modelValuesOf\2/g
s/(^|[^A-Za-z0-9_′.:-])reached-aim([^A-Za-z0-9_′-]|$)/\1target-depth-is\2/g
s/(^|[^A-Za-z0-9_′.:-])reached-le([^A-Za-z0-9_′-]|$)/\1target-depth-le\2/g
s/(^|[^A-Za-z0-9_′.:-])reached-within([^A-Za-z0-9_′-]|$)/\1followed-within\2/g
s/(^|[^A-Za-z0-9_′.:-])reaches-form([^A-Za-z0-9_′-]|$)/\1has-target-form\2/g
s/(^|[^A-Za-z0-9_′.:-])rewrites-told([^A-Za-z0-9_′-]|$)/\1rewrites-answers\2/g
s/(^|[^A-Za-z0-9_′.:-])roomOf([^A-Za-z0-9_′-]|$)/\1modelRoom\2/g
s/(^|[^A-Za-z0-9_′.:-])rung([^A-Za-z0-9_′-]|$)/\1refusal-step\2/g
s/(^|[^A-Za-z0-9_′.:-])rung-last([^A-Za-z0-9_′-]|$)/\1refusal-last\2/g
s/(^|[^A-Za-z0-9_′.:-])said-told([^A-Za-z0-9_′-]|$)/\1value-of-call\2/g
s/(^|[^A-Za-z0-9_′.:-])same-behind([^A-Za-z0-9_′-]|$)/\1same-after\2/g
s/(^|[^A-Za-z0-9_′.:-])scalar-line([^A-Za-z0-9_′-]|$)/\1scalar-request\2/g
s/(^|[^A-Za-z0-9_′.:-])seen([^A-Za-z0-9_′-]|$)/\1headOf\2/g
s/(^|[^A-Za-z0-9_′.:-])shown([^A-Za-z0-9_′-]|$)/\1valueOn\2/g
s/(^|[^A-Za-z0-9_′.:-])shown-kind([^A-Za-z0-9_′-]|$)/\1value-kind\2/g
s/(^|[^A-Za-z0-9_′.:-])shown-tells([^A-Za-z0-9_′-]|$)/\1value-on-token\2/g
s/(^|[^A-Za-z0-9_′.:-])shut([^A-Za-z0-9_′-]|$)/\1writeDelta\2/g
s/(^|[^A-Za-z0-9_′.:-])shut-follows([^A-Za-z0-9_′-]|$)/\1delta-follows\2/g
s/(^|[^A-Za-z0-9_′.:-])shut-only([^A-Za-z0-9_′-]|$)/\1delta-only\2/g
s/(^|[^A-Za-z0-9_′.:-])shut-sound([^A-Za-z0-9_′-]|$)/\1delta-sound\2/g
s/(^|[^A-Za-z0-9_′.:-])shutFar([^A-Za-z0-9_′-]|$)/\1closeFar\2/g
s/(^|[^A-Za-z0-9_′.:-])shutNear([^A-Za-z0-9_′-]|$)/\1closeNear\2/g
s/(^|[^A-Za-z0-9_′.:-])sight([^A-Za-z0-9_′-]|$)/\1depthState\2/g
s/(^|[^A-Za-z0-9_′.:-])spot([^A-Za-z0-9_′-]|$)/\1position\2/g
s/(^|[^A-Za-z0-9_′.:-])stands-next([^A-Za-z0-9_′-]|$)/\1taken-next\2/g
s/(^|[^A-Za-z0-9_′.:-])startsOf([^A-Za-z0-9_′-]|$)/\1modelStarts\2/g
s/(^|[^A-Za-z0-9_′.:-])step-line([^A-Za-z0-9_′-]|$)/\1step-request\2/g
s/(^|[^A-Za-z0-9_′.:-])takenOf([^A-Za-z0-9_′-]|$)/\1modelAfter\2/g
s/(^|[^A-Za-z0-9_′.:-])targets-aimed([^A-Za-z0-9_′-]|$)/\1targets-of-has-targets\2/g
s/(^|[^A-Za-z0-9_′.:-])tell-pointer([^A-Za-z0-9_′-]|$)/\1read-pointer\2/g
s/(^|[^A-Za-z0-9_′.:-])tell-reference([^A-Za-z0-9_′-]|$)/\1read-reference\2/g
s/(^|[^A-Za-z0-9_′.:-])tellOf([^A-Za-z0-9_′-]|$)/\1valueOfToken\2/g
s/(^|[^A-Za-z0-9_′.:-])tells-body([^A-Za-z0-9_′-]|$)/\1reads-body\2/g
s/(^|[^A-Za-z0-9_′.:-])tells-body-of-pointer([^A-Za-z0-9_′-]|$)/\1reads-body-of-pointer\2/g
s/(^|[^A-Za-z0-9_′.:-])tells-end([^A-Za-z0-9_′-]|$)/\1reads-end\2/g
s/(^|[^A-Za-z0-9_′.:-])tells-item([^A-Za-z0-9_′-]|$)/\1reads-item\2/g
s/(^|[^A-Za-z0-9_′.:-])tells-item-end([^A-Za-z0-9_′-]|$)/\1reads-item-end\2/g
s/(^|[^A-Za-z0-9_′.:-])tells-item-leaf([^A-Za-z0-9_′-]|$)/\1reads-item-leaf\2/g
s/(^|[^A-Za-z0-9_′.:-])tells-leaf([^A-Za-z0-9_′-]|$)/\1reads-leaf\2/g
s/(^|[^A-Za-z0-9_′.:-])tells-no-body([^A-Za-z0-9_′-]|$)/\1reads-no-body\2/g
s/(^|[^A-Za-z0-9_′.:-])tells-none([^A-Za-z0-9_′-]|$)/\1reads-none\2/g
s/(^|[^A-Za-z0-9_′.:-])tells-token([^A-Za-z0-9_′-]|$)/\1reads-token\2/g
s/(^|[^A-Za-z0-9_′.:-])tells-value([^A-Za-z0-9_′-]|$)/\1reads-value\2/g
s/(^|[^A-Za-z0-9_′.:-])told-form([^A-Za-z0-9_′-]|$)/\1read-form\2/g
s/(^|[^A-Za-z0-9_′.:-])told-said([^A-Za-z0-9_′-]|$)/\1call-value\2/g
s/(^|[^A-Za-z0-9_′.:-])toldBody([^A-Za-z0-9_′-]|$)/\1bodyAnswer\2/g
s/(^|[^A-Za-z0-9_′.:-])toldCheck([^A-Za-z0-9_′-]|$)/\1checkAnswer\2/g
s/(^|[^A-Za-z0-9_′.:-])toldFollow([^A-Za-z0-9_′-]|$)/\1followAnswer\2/g
s/(^|[^A-Za-z0-9_′.:-])toldIn([^A-Za-z0-9_′-]|$)/\1checkInAnswer\2/g
s/(^|[^A-Za-z0-9_′.:-])toldList([^A-Za-z0-9_′-]|$)/\1listAnswer\2/g
s/(^|[^A-Za-z0-9_′.:-])toldOf([^A-Za-z0-9_′-]|$)/\1valueOfPart\2/g
s/(^|[^A-Za-z0-9_′.:-])toldOffset([^A-Za-z0-9_′-]|$)/\1offsetAnswer\2/g
s/(^|[^A-Za-z0-9_′.:-])toldPair([^A-Za-z0-9_′-]|$)/\1pairAnswer\2/g
s/(^|[^A-Za-z0-9_′.:-])toldRead([^A-Za-z0-9_′-]|$)/\1readAnswer\2/g
s/(^|[^A-Za-z0-9_′.:-])toldTrail([^A-Za-z0-9_′-]|$)/\1followHeadAnswer\2/g
s/(^|[^A-Za-z0-9_′.:-])trail-end([^A-Za-z0-9_′-]|$)/\1followFrom-end\2/g
s/(^|[^A-Za-z0-9_′.:-])trail-error([^A-Za-z0-9_′-]|$)/\1followFrom-error\2/g
s/(^|[^A-Za-z0-9_′.:-])trail-more([^A-Za-z0-9_′-]|$)/\1followFrom-more\2/g
s/(^|[^A-Za-z0-9_′.:-])trail-pointer([^A-Za-z0-9_′-]|$)/\1followFrom-pointer\2/g
s/(^|[^A-Za-z0-9_′.:-])trail-reached([^A-Za-z0-9_′-]|$)/\1follow-head-inv\2/g
s/(^|[^A-Za-z0-9_′.:-])trail-reaches([^A-Za-z0-9_′-]|$)/\1follow-leads\2/g
s/(^|[^A-Za-z0-9_′.:-])trail-target([^A-Za-z0-9_′-]|$)/\1followFrom-target\2/g
s/(^|[^A-Za-z0-9_′.:-])trailOf([^A-Za-z0-9_′-]|$)/\1followHeadOf\2/g
s/(^|[^A-Za-z0-9_′.:-])value-plain([^A-Za-z0-9_′-]|$)/\1value-model\2/g
s/(^|[^A-Za-z0-9_′.:-])values-plains([^A-Za-z0-9_′-]|$)/\1values-models\2/g
s/(^|[^A-Za-z0-9_′.:-])walk-stands([^A-Za-z0-9_′-]|$)/\1walk-taken\2/g
s/(^|[^A-Za-z0-9_′.:-])writeShut([^A-Za-z0-9_′-]|$)/\1writePointerDelta\2/g
s/(^|[^A-Za-z0-9_′.:-])writeShut-only([^A-Za-z0-9_′-]|$)/\1writePointerDelta-only\2/g
s/(^|[^A-Za-z0-9_′.:-])zeros-behind([^A-Za-z0-9_′-]|$)/\1zeros-after\2/g
s/(^|[^A-Za-z0-9_′.:-])bodyBytes([^A-Za-z0-9_′-]|$)/\1bodyOf\2/g
# crates
s/Rattle·region\b/Rattle·reader_region/g
s/\bcrates\/region\b/crates\/reader_region/g
s/\bregion\/(specs|proofs|src|must-fail)\b/reader_region\/\1/g
s/\bregion::/reader_region::/g
s/\b(crate|crates) (`?)region\b/\1 \2reader_region/g
s/Rattle·read\b/Rattle·reader_value/g
s/\bcrates\/read\b/crates\/reader_value/g
s/\bread\/(specs|proofs|src|must-fail)\b/reader_value\/\1/g
s/\bread::/reader_value::/g
s/\b(crate|crates) (`?)read\b/\1 \2reader_value/g
s/Rattle·items\b/Rattle·reader_items/g
s/\bcrates\/items\b/crates\/reader_items/g
s/\bitems\/(specs|proofs|src|must-fail)\b/reader_items\/\1/g
s/\bitems::/reader_items::/g
s/\b(crate|crates) (`?)items\b/\1 \2reader_items/g
s/Rattle·pointers\b/Rattle·reader_follow/g
s/\bcrates\/pointers\b/crates\/reader_follow/g
s/\bpointers\/(specs|proofs|src|must-fail)\b/reader_follow\/\1/g
s/\bpointers::/reader_follow::/g
s/\b(crate|crates) (`?)pointers\b/\1 \2reader_follow/g
s/Rattle·body\b/Rattle·reader_body/g
s/\bcrates\/body\b/crates\/reader_body/g
s/\bbody\/(specs|proofs|src|must-fail)\b/reader_body\/\1/g
s/\bbody::/reader_body::/g
s/\b(crate|crates) (`?)body\b/\1 \2reader_body/g
s/Rattle·lookup\b/Rattle·reader_lookup/g
s/\bcrates\/lookup\b/crates\/reader_lookup/g
s/\blookup\/(specs|proofs|src|must-fail)\b/reader_lookup\/\1/g
s/\blookup::/reader_lookup::/g
s/\b(crate|crates) (`?)lookup\b/\1 \2reader_lookup/g
s/Rattle·pass\b/Rattle·checker_value/g
s/\bcrates\/pass\b/crates\/checker_value/g
s/\bpass\/(specs|proofs|src|must-fail)\b/checker_value\/\1/g
s/\bpass::/checker_value::/g
s/\b(crate|crates) (`?)pass\b/\1 \2checker_value/g
s/Rattle·starts\b/Rattle·checker_starts/g
s/\bcrates\/starts\b/crates\/checker_starts/g
s/\bstarts\/(specs|proofs|src|must-fail)\b/checker_starts\/\1/g
s/\bstarts::/checker_starts::/g
s/\b(crate|crates) (`?)starts\b/\1 \2checker_starts/g
s/Rattle·scan_item\b/Rattle·checker_item/g
s/\bcrates\/scan_item\b/crates\/checker_item/g
s/\bscan_item\/(specs|proofs|src|must-fail)\b/checker_item\/\1/g
s/\bscan_item::/checker_item::/g
s/\b(crate|crates) (`?)scan_item\b/\1 \2checker_item/g
s/Rattle·depth\b/Rattle·depths_value/g
s/\bcrates\/depth\b/crates\/depths_value/g
s/\bdepth\/(specs|proofs|src|must-fail)\b/depths_value\/\1/g
s/\bdepth::/depths_value::/g
s/\b(crate|crates) (`?)depth\b/\1 \2depths_value/g
s/Rattle·listing\b/Rattle·writer_listing/g
s/\bcrates\/listing\b/crates\/writer_listing/g
s/\blisting\/(specs|proofs|src|must-fail)\b/writer_listing\/\1/g
s/\blisting::/writer_listing::/g
s/\b(crate|crates) (`?)listing\b/\1 \2writer_listing/g
s/Rattle·judge\b/Rattle·writer_refusal/g
s/\bcrates\/judge\b/crates\/writer_refusal/g
s/\bjudge\/(specs|proofs|src|must-fail)\b/writer_refusal\/\1/g
s/\bjudge::/writer_refusal::/g
s/\b(crate|crates) (`?)judge\b/\1 \2writer_refusal/g
s/Rattle·reply\b/Rattle·abi_error/g
s/\bcrates\/reply\b/crates\/abi_error/g
s/\breply\/(specs|proofs|src|must-fail)\b/abi_error\/\1/g
s/\breply::/abi_error::/g
s/\b(crate|crates) (`?)reply\b/\1 \2abi_error/g
s/Rattle·tell\b/Rattle·abi_answer/g
s/\bcrates\/tell\b/crates\/abi_answer/g
s/\btell\/(specs|proofs|src|must-fail)\b/abi_answer\/\1/g
s/\btell::/abi_answer::/g
s/\b(crate|crates) (`?)tell\b/\1 \2abi_answer/g
s/Rattle·state\b/Rattle·abi_writer/g
s/\bcrates\/state\b/crates\/abi_writer/g
s/\bstate\/(specs|proofs|src|must-fail)\b/abi_writer\/\1/g
s/\bstate::/abi_writer::/g
s/\b(crate|crates) (`?)state\b/\1 \2abi_writer/g
s/Rattle·header\b/Rattle·scan_number/g
s/\bcrates\/header\b/crates\/scan_number/g
s/\bheader\/(specs|proofs|src|must-fail)\b/scan_number\/\1/g
s/\bheader::/scan_number::/g
s/\b(crate|crates) (`?)header\b/\1 \2scan_number/g
s/Rattle·search\b/Rattle·table_search/g
s/\bcrates\/search\b/crates\/table_search/g
s/\bsearch\/(specs|proofs|src|must-fail)\b/table_search\/\1/g
s/\bsearch::/table_search::/g
s/\b(crate|crates) (`?)search\b/\1 \2table_search/g
s/Rattle·float\b/Rattle·little_endian/g
s/\bcrates\/float\b/crates\/little_endian/g
s/\bfloat\/(specs|proofs|src|must-fail)\b/little_endian\/\1/g
s/\bfloat::/little_endian::/g
s/\b(crate|crates) (`?)float\b/\1 \2little_endian/g

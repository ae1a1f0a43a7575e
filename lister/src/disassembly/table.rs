//! What instructions that are not modelled may write, by volume 2 of the Intel
//! manual: general registers, and the flags CF, PF, ZF, SF, OF. A flag that the
//! manual leaves undefined counts as written. What is not here is unknown.

use crate::sheets::names::flag::{ALL, CF, OF, PF, SF, ZF};
use std::collections::HashMap;
use std::sync::OnceLock;

pub const RAX: u8 = 0;
pub const RCX: u8 = 1;
pub const RDX: u8 = 2;
pub const RBX: u8 = 3;
pub const RSP: u8 = 4;
pub const RBP: u8 = 5;
pub const RSI: u8 = 6;
pub const RDI: u8 = 7;

/// Which operands are written, if they are general registers; which registers
/// besides, whole; which flags.
#[derive(Clone, Copy, Debug, PartialEq, Eq)]
pub struct Writes {
    pub operands: usize,
    pub registers: &'static [u8],
    pub flags: u8,
}

const fn writes(operands: usize, registers: &'static [u8], flags: u8) -> Writes {
    Writes { operands, registers, flags }
}

/// Rows of names with what each of them writes. The first number is how many of
/// the operands, counted from the first, are written.
const INTEGER: &[(&str, Writes)] = &[
    ("nop endbr64 endbr32 pause lfence mfence sfence clflush clflushopt clwb", writes(0, &[], 0)),
    ("prefetcht0 prefetcht1 prefetcht2 prefetchnta prefetchw prefetch", writes(0, &[], 0)),
    ("cld std movnti wrpkru incsspd incsspq", writes(0, &[], 0)),
    ("lea movzx movsx movsxd movbe bswap", writes(1, &[], 0)),
    ("seto setno setb setae sete setne setbe seta", writes(1, &[], 0)),
    ("sets setns setp setnp setl setge setle setg", writes(1, &[], 0)),
    ("cmovo cmovno cmovb cmovae cmove cmovne cmovbe cmova", writes(1, &[], 0)),
    ("cmovs cmovns cmovp cmovnp cmovl cmovge cmovle cmovg", writes(1, &[], 0)),
    ("rorx sarx shlx shrx pdep pext crc32 rdsspd rdsspq rdpid", writes(1, &[], 0)),
    ("mulx", writes(2, &[], 0)),
    ("xchg", writes(2, &[], 0)),
    ("xadd", writes(2, &[], ALL)),
    ("adc sbb shl shr sar shld shrd bts btr btc", writes(1, &[], ALL)),
    ("bsf bsr tzcnt lzcnt popcnt", writes(1, &[], ALL)),
    ("andn bextr blsi blsr blsmsk bzhi rdrand rdseed", writes(1, &[], ALL)),
    ("rol ror rcl rcr", writes(1, &[], CF | OF)),
    ("adcx", writes(1, &[], CF)),
    ("adox", writes(1, &[], OF)),
    ("bt xtest", writes(0, &[], ALL)),
    ("cmpxchg", writes(1, &[RAX], ALL)),
    ("cmpxchg8b cmpxchg16b", writes(0, &[RAX, RDX], ZF)),
    ("mul div idiv", writes(0, &[RAX, RDX], ALL)),
    ("cbw cwde cdqe xlat lahf", writes(0, &[RAX], 0)),
    ("cwd cdq cqo", writes(0, &[RDX], 0)),
    ("sahf", writes(0, &[], CF | PF | ZF | SF)),
    ("push pushf pushfq pushfw", writes(0, &[RSP], 0)),
    ("pop", writes(1, &[RSP], 0)),
    ("popf popfq popfw", writes(0, &[RSP], ALL)),
    ("enter leave", writes(0, &[RSP, RBP], 0)),
    ("cpuid", writes(0, &[RAX, RBX, RCX, RDX], 0)),
    ("rdtsc xgetbv rdpkru", writes(0, &[RAX, RDX], 0)),
    ("rdtscp", writes(0, &[RAX, RCX, RDX], 0)),
];

/// Instructions that 64-bit code does not have, and those that load segment registers.
const NOT_IN_64_BITS: &[(&str, Writes)] = &[
    ("pusha pushaw", writes(0, &[RSP], 0)),
    ("popa popaw", writes(0, &[RAX, RCX, RDX, RBX, RSP, RBP, RSI, RDI], 0)),
    ("les lds lss lfs lgs", writes(1, &[], 0)),
    ("aaa aas daa das aam aad", writes(0, &[RAX], ALL)),
    ("bound", writes(0, &[], 0)),
    ("arpl", writes(1, &[], ZF)),
];

/// String instructions, with or without a prefix that repeats them; the count
/// of the repeats is taken to be written in both cases.
const STRINGS: &[(&str, Writes)] = &[
    ("movs", writes(0, &[RCX, RSI, RDI], 0)),
    ("stos", writes(0, &[RCX, RDI], 0)),
    ("lods", writes(0, &[RAX, RCX, RSI], 0)),
    ("cmps", writes(0, &[RCX, RSI, RDI], ALL)),
    ("scas", writes(0, &[RCX, RDI], ALL)),
];

const X87: &[(&str, Writes)] = &[
    ("fld fst fstp fild fist fistp fisttp fld1 fldz fldpi fldl2e fldl2t fldlg2", writes(0, &[], 0)),
    ("fldln2 fadd faddp fiadd fsub fsubp fsubr fsubrp fisub fisubr fmul fmulp", writes(0, &[], 0)),
    ("fimul fdiv fdivp fdivr fdivrp fidiv fidivr fchs fabs fsqrt frndint", writes(0, &[], 0)),
    ("fscale fprem fprem1 fxtract f2xm1 fyl2x fyl2xp1 fptan fpatan fsin fcos", writes(0, &[], 0)),
    ("fsincos fcom fcomp fcompp fucom fucomp fucompp ficom ficomp ftst fxam", writes(0, &[], 0)),
    ("fxch fcmovb fcmove fcmovbe fcmovu fcmovnb fcmovne fcmovnbe fcmovnu", writes(0, &[], 0)),
    ("fnstcw fldcw fnstenv fldenv fnsave frstor fnclex fninit fincstp", writes(0, &[], 0)),
    ("fdecstp ffree fnop fwait emms", writes(0, &[], 0)),
    ("fstcw fstenv fsave fclex finit", writes(0, &[], 0)),
    ("fnstsw fstsw", writes(1, &[], 0)),
    ("fcomi fcomip fucomi fucomip", writes(0, &[], ALL)),
];

/// Vector instructions that also have a form with v before the name. The first
/// operand is where the result goes; it may be a general register.
const VECTOR: &[(&str, Writes)] = &[
    ("movaps movups movapd movupd movdqa movdqu movss movsd movhlps movlhps", writes(1, &[], 0)),
    ("movhps movhpd movlps movlpd movd movq movntps movntpd movntdq movntdqa", writes(1, &[], 0)),
    ("lddqu movmskps movmskpd pmovmskb movddup movshdup movsldup", writes(1, &[], 0)),
    ("addps addpd addss addsd subps subpd subss subsd mulps mulpd mulss mulsd", writes(1, &[], 0)),
    ("divps divpd divss divsd sqrtps sqrtpd sqrtss sqrtsd rcpps rcpss", writes(1, &[], 0)),
    ("rsqrtps rsqrtss minps minpd minss minsd maxps maxpd maxss maxsd", writes(1, &[], 0)),
    ("andps andpd andnps andnpd orps orpd xorps xorpd", writes(1, &[], 0)),
    ("haddps haddpd hsubps hsubpd addsubps addsubpd dpps dppd", writes(1, &[], 0)),
    ("shufps shufpd unpcklps unpcklpd unpckhps unpckhpd blendps blendpd", writes(1, &[], 0)),
    ("blendvps blendvpd roundps roundpd roundss roundsd insertps extractps", writes(1, &[], 0)),
    ("cmpeqps cmpeqpd cmpeqss cmpeqsd cmpltps cmpltpd cmpltss cmpltsd", writes(1, &[], 0)),
    ("cmpleps cmplepd cmpless cmplesd cmpunordps cmpunordpd cmpunordss", writes(1, &[], 0)),
    ("cmpunordsd cmpneqps cmpneqpd cmpneqss cmpneqsd cmpnltps cmpnltpd", writes(1, &[], 0)),
    ("cmpnltss cmpnltsd cmpnleps cmpnlepd cmpnless cmpnlesd cmpordps", writes(1, &[], 0)),
    ("cmpordpd cmpordss cmpordsd", writes(1, &[], 0)),
    ("cvtsi2ss cvtsi2sd cvtss2si cvtsd2si cvttss2si cvttsd2si cvtss2sd", writes(1, &[], 0)),
    ("cvtsd2ss cvtps2pd cvtpd2ps cvtdq2ps cvtdq2pd cvtps2dq cvtpd2dq", writes(1, &[], 0)),
    ("cvttps2dq cvttpd2dq", writes(1, &[], 0)),
    ("paddb paddw paddd paddq paddsb paddsw paddusb paddusw", writes(1, &[], 0)),
    ("psubb psubw psubd psubq psubsb psubsw psubusb psubusw", writes(1, &[], 0)),
    ("pmullw pmulld pmulhw pmulhuw pmulhrsw pmuludq pmuldq pmaddwd pmaddubsw", writes(1, &[], 0)),
    ("pand pandn por pxor pavgb pavgw psadbw mpsadbw pabsb pabsw pabsd", writes(1, &[], 0)),
    ("psignb psignw psignd phaddw phaddd phaddsw phsubw phsubd phsubsw", writes(1, &[], 0)),
    ("pcmpeqb pcmpeqw pcmpeqd pcmpeqq pcmpgtb pcmpgtw pcmpgtd pcmpgtq", writes(1, &[], 0)),
    ("pminub pminuw pminud pminsb pminsw pminsd", writes(1, &[], 0)),
    ("pmaxub pmaxuw pmaxud pmaxsb pmaxsw pmaxsd phminposuw", writes(1, &[], 0)),
    ("psllw pslld psllq pslldq psrlw psrld psrlq psrldq psraw psrad", writes(1, &[], 0)),
    ("pshufb pshufd pshuflw pshufhw palignr pblendw pblendvb", writes(1, &[], 0)),
    ("punpcklbw punpcklwd punpckldq punpcklqdq", writes(1, &[], 0)),
    ("punpckhbw punpckhwd punpckhdq punpckhqdq", writes(1, &[], 0)),
    ("packsswb packssdw packuswb packusdw", writes(1, &[], 0)),
    ("pmovzxbw pmovzxbd pmovzxbq pmovzxwd pmovzxwq pmovzxdq", writes(1, &[], 0)),
    ("pmovsxbw pmovsxbd pmovsxbq pmovsxwd pmovsxwq pmovsxdq", writes(1, &[], 0)),
    ("pextrb pextrw pextrd pextrq pinsrb pinsrw pinsrd pinsrq", writes(1, &[], 0)),
    ("aesenc aesenclast aesdec aesdeclast aesimc aeskeygenassist", writes(1, &[], 0)),
    ("pclmulqdq pclmullqlqdq pclmulhqlqdq pclmullqhqdq pclmulhqhqdq", writes(1, &[], 0)),
    ("ldmxcsr stmxcsr maskmovdqu", writes(0, &[], 0)),
    ("comiss comisd ucomiss ucomisd ptest", writes(0, &[], ALL)),
    ("pcmpistrm pcmpestrm", writes(0, &[], ALL)),
    ("pcmpistri pcmpestri", writes(0, &[RCX], ALL)),
];

/// Vector instructions with one form.
const VECTOR_ALONE: &[(&str, Writes)] = &[
    ("pshufw movq2dq movdq2q maskmovq cvtpi2ps cvtps2pi cvttps2pi", writes(1, &[], 0)),
    ("sha1rnds4 sha1nexte sha1msg1 sha1msg2 sha256rnds2 sha256msg1 sha256msg2", writes(1, &[], 0)),
    ("vmovdqu8 vmovdqu16 vmovdqu32 vmovdqu64 vmovdqa32 vmovdqa64", writes(1, &[], 0)),
    ("vpbroadcastb vpbroadcastw vpbroadcastd vpbroadcastq", writes(1, &[], 0)),
    ("vbroadcastss vbroadcastsd vbroadcastf128 vbroadcasti128", writes(1, &[], 0)),
    ("vinserti128 vinsertf128 vextracti128 vextractf128", writes(1, &[], 0)),
    ("vperm2i128 vperm2f128 vpermq vpermd vpermps vpermpd vpermilps vpermilpd", writes(1, &[], 0)),
    ("vpblendd vpblendmd vpblendmq vpternlogd vpternlogq", writes(1, &[], 0)),
    ("vbroadcastf32x4 vbroadcastf64x2 vbroadcastf64x4", writes(1, &[], 0)),
    ("vbroadcasti32x4 vbroadcasti64x2 vbroadcasti64x4", writes(1, &[], 0)),
    ("vinsertf32x4 vinsertf64x2 vinsertf64x4", writes(1, &[], 0)),
    ("vinserti32x4 vinserti64x2 vinserti64x4", writes(1, &[], 0)),
    ("vextractf32x4 vextractf64x2 vextractf64x4", writes(1, &[], 0)),
    ("vextracti32x4 vextracti64x2 vextracti64x4", writes(1, &[], 0)),
    ("vshuff32x4 vshuff64x2 vshufi32x4 vshufi64x2 valignd valignq", writes(1, &[], 0)),
    ("vpermt2d vpermt2q vpermi2d vpermi2q vpmadd52luq vpmadd52huq", writes(1, &[], 0)),
    ("vpsraq vpshldd vpshldq vpshrdd vpshrdq vprotd vprotq", writes(1, &[], 0)),
    ("vpandd vpandq vpandnd vpandnq vpord vporq vpxord vpxorq", writes(1, &[], 0)),
    ("vpsllvd vpsllvq vpsrlvd vpsrlvq vpsravd vprold vprolq vprord vprorq", writes(1, &[], 0)),
    ("vpcmpltub vpcmpleub vpcmpnequb vpcmpnltub vpcmpnleub", writes(1, &[], 0)),
    ("vpcmpneqb vpcmpneqw vpcmpneqd vpcmpneqq vpcmpltud vpcmpequq vpcmpnleuq", writes(1, &[], 0)),
    ("vptestmb vptestmw vptestmd vptestmq", writes(1, &[], 0)),
    ("vptestnmb vptestnmw vptestnmd vptestnmq", writes(1, &[], 0)),
    ("kmovb kmovw kmovd kmovq", writes(1, &[], 0)),
    ("kandb kandw kandd kandq kandnd kandnq korb korw kord korq", writes(1, &[], 0)),
    ("kxorb kxorw kxord kxorq kxnorw kxnord kxnorq knotw knotd knotq", writes(1, &[], 0)),
    ("kunpckbw kunpckwd kunpckdq kshiftrw kshiftrd kshiftrq", writes(1, &[], 0)),
    ("vzeroupper vzeroall", writes(0, &[], 0)),
    ("vtestps vtestpd", writes(0, &[], ALL)),
    ("kortestb kortestw kortestd kortestq ktestb ktestw ktestd ktestq", writes(0, &[], ALL)),
];

fn rows(table: &'static [(&str, Writes)]) -> impl Iterator<Item = (&'static str, Writes)> {
    table.iter().flat_map(|(names, writes)| names.split(' ').map(move |name| (name, *writes)))
}

/// Every name with what it writes.
fn entries() -> impl Iterator<Item = (String, Writes)> {
    let plain =
        [INTEGER, NOT_IN_64_BITS, STRINGS, X87, VECTOR, VECTOR_ALONE].into_iter().flat_map(rows);
    let plain = plain.map(|(name, writes)| (name.to_string(), writes));
    plain.chain(rows(VECTOR).map(|(name, writes)| (format!("v{name}"), writes)))
}

fn table() -> &'static HashMap<String, Writes> {
    static TABLE: OnceLock<HashMap<String, Writes>> = OnceLock::new();
    TABLE.get_or_init(|| entries().collect())
}

/// What an instruction writes by its name and its number of operands; nothing
/// if the table does not have it.
pub fn written(mnemonic: &str, operands: usize) -> Option<Writes> {
    match (mnemonic, operands) {
        ("imul", 1) => Some(writes(0, &[RAX, RDX], ALL)),
        ("imul", 2 | 3) => Some(writes(1, &[], ALL)),
        _ => table().get(mnemonic).copied(),
    }
}

/// Whether the name is one of a string instruction, which may be repeated.
pub fn is_string(mnemonic: &str) -> bool {
    rows(STRINGS).any(|(name, _)| name == mnemonic)
}

/// Every name of the table, as often as it stands there.
pub fn names() -> Vec<String> {
    entries().map(|(name, _)| name).collect()
}

//! The 79 operations in document 01's order.

macro_rules! operations {
    ($($name:ident $text:literal)*) => {
        #[derive(Debug, Clone, Copy, PartialEq, Eq)]
        #[repr(u8)]
        pub enum Operation { $($name),* }

        impl Operation {
            pub const ALL: [Operation; 79] = [$(Operation::$name),*];
        }

        pub const NAMES: [&str; 79] = [$($text),*];
    };
}

operations! {
    Nop "NOP" Add "ADD" Sub "SUB" Rsub "RSUB" Addx "ADDX" Addc "ADDC" Subx "SUBX" Subc "SUBC" Adds "ADDS"
    AddsU "ADDS.U" Subs "SUBS" SubsU "SUBS.U" Mul "MUL" And "AND" Or "OR" Xor "XOR" Nand "NAND" Nor "NOR" Xnor "XNOR"
    Andn "ANDN" Orn "ORN" Sh "SH" Sha "SHA" Min "MIN" MinU "MIN.U" Max "MAX" MaxU "MAX.U" Abs "ABS" Absdif "ABSDIF"
    Eq "EQ" Ne "NE" Lt "LT" LtU "LT.U" Ge "GE" GeU "GE.U" Clz "CLZ" Clo "CLO" Cls "CLS" Mov "MOV" MovA "MOV.A"
    MovD "MOV.D" MovAa "MOV.AA" AddA "ADD.A" SubA "SUB.A" LdB "LD.B" LdBu "LD.BU" LdH "LD.H" LdHu "LD.HU" LdW "LD.W"
    LdA "LD.A" StB "ST.B" StH "ST.H" StW "ST.W" StA "ST.A" J "J" Jl "JL" Ji "JI" Jeq "JEQ" Jne "JNE" Jlt "JLT"
    JltU "JLT.U" Jge "JGE" JgeU "JGE.U" Loop "LOOP" Call "CALL" Calli "CALLI" Ret "RET" Rfe "RFE" Svlcx "SVLCX"
    Rslcx "RSLCX" Bisr "BISR" Syscall "SYSCALL" Enable "ENABLE" Disable "DISABLE" Mfcr "MFCR" Mtcr "MTCR"
    Trapv "TRAPV" Trapsv "TRAPSV" Rstv "RSTV"
}

      IMPLICIT INTEGER (F,T)
      F1(N)=N+N
      F2(N)=F1(N)+1
      F3(N)=F2(N)+1
      F4(N)=F3(N)+1
      F5(N)=F4(N)+1
      F6(N)=F5(N)+1
      F7(N)=F6(N)+1
      F8(N)=F7(N)+1
      F9(N)=F8(N)+1
      F10(N)=F9(N)+1
      F11(N)=F10(N)+1
      F12(N)=F11(N)+1
      F13(N)=F12(N)+1
      F14(N)=F13(N)+1
      F15(N)=F14(N)+1
      F16(N)=F15(N)+1
      F17(N)=F16(N)+1
      F18(N)=F17(N)+1
      F19(N)=F18(N)+1
      F20(N)=F19(N)+1
      F21(N)=F20(N)+1
      F22(N)=F21(N)+1
      F23(N)=F22(N)+1
      F24(N)=F23(N)+1
      F25(N)=F24(N)+1
      F26(N)=F25(N)+1
      F27(N)=F26(N)+1
      F28(N)=F27(N)+1
      F29(N)=F28(N)+1
      F30(N)=F29(N)+1
      F31(N)=F30(N)+1
      F32(N)=F31(N)+1
      F33(N)=F32(N)+1
      TOP(N)=F33(N)
      WRITE (6,10) TOP(1)
   10 FORMAT (I6)
      END

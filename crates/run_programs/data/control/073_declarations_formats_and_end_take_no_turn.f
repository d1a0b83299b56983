C TURNS 2
      PROGRAM NONE
      IMPLICIT INTEGER (A-Z)
      PARAMETER (N=2)
      DIMENSION A(N)
      LOGICAL P
      DATA A/N*3/
      ISQ(I)=I*I
   10 FORMAT (I3)
      CONTINUE
      I=1
   20 FORMAT (I3)
      END

      LOGICAL P,Q
      DATA P/.TRUE./
      IF (P.AND..NOT.Q) I=I+1
      IF (P.EQV.Q) I=I+10
      IF (P.NEQV.Q.OR.I.LT.0) I=I+100
      IF ((P)) I=I+1000
      IF (Q) I=I+10000
      WRITE (6,10) I
   10 FORMAT (I6)
      END

      LOGICAL P,Q
      INTEGER A(3)
      P=.TRUE..OR.A(4).EQ.1
      Q=.FALSE..AND.1/K.EQ.1
      WRITE (6,10) P,Q,P.OR.Q.AND.2**31.EQ.0
   10 FORMAT (L1,2L2)
      END

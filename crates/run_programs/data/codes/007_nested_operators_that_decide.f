      LOGICAL P,Q,R
      P=.FALSE..AND.(1/K.EQ.1.OR.(1/K.EQ.2.AND.1/K.EQ.3))
      Q=.TRUE..OR.(P.AND.1/K.EQ.1).OR.1/K.EQ.2
      R=.NOT.(P.AND.1/K.EQ.1).AND.(Q.OR.1/K.EQ.2)
      WRITE (6,10) P,Q,R
   10 FORMAT (3L2)
      END

      LOGICAL L,SIGN
      L=.TRUE.
      I=1
      I=IABS(SIGN(I,-1))
      END

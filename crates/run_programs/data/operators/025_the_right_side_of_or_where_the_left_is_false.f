      LOGICAL L
      INTEGER A(3)
      L=1.EQ.2.OR.A(K).EQ.1
      END

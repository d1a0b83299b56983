      LOGICAL L
      DO WHILE (L)
      I=I+1
      END DO
      DO WHILE (.NOT.L)
      I=I+1
      L=I.EQ.3
      END DO
      DO WHILE (J.EQ.0)
      J=J+1
      END DO
      WRITE (6,10) I,J,L
   10 FORMAT (2I4,L2)
      END

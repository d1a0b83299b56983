      LOGICAL L,M
      DO WHILE (.NOT.(I.GE.5))
      I=I+1
      END DO
      DO WHILE (L.EQV.M)
      I=I+1
      L=I.GT.7
      END DO
      DO WHILE (L.NEQV.M)
      I=I+1
      M=I.GT.10
      END DO
      WRITE (6,10) I,L,M
   10 FORMAT (I4,2L2)
      END

      IMPLICIT INTEGER (A-Z)
      LOGICAL L(4)
      DO 20 I=1,5
      L(I)=I.GT.2
   20 CONTINUE
      END

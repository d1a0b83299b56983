      INTEGER A(3)
      IELEM(I)=A(I)
      J=IELEM(4)
      END

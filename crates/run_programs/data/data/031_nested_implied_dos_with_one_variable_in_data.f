      INTEGER A(3)
      DATA ((A(I),I=1,2),I=1,1)/2*1/
      END

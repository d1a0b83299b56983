      INTEGER A(3,3)
      DATA ((A(I,J),I=2,J),J=1,3)/3*1/
      END

      IF(A)DATAI/1/
      END
